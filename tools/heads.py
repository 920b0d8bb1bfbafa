#!/usr/bin/env python3
"""Counts heads of functions of crates/*/src by their slices.

Run at the top: python3 tools/heads.py    (a tree elsewhere: HEADS_ROOT=DIR; with a word behind it, names them)
"""
import glob, os, re, sys

root = os.environ.get("HEADS_ROOT", ".")
SLICE = r": &(?:'a )?(?:mut )?\[\w+\]"
wide, written, counted = [], [], []
for path in sorted(glob.glob(f"{root}/crates/*/src/**/*.rt", recursive=True)):
    crate = path.removeprefix(root + "/").split("/")[1]
    for head in re.finditer(r"\bfn (\w+)(?:<[^>]*>)?\(([^{]*?)\)\s*(?:->|\n|requires|ensures|\{)", open(path, encoding="utf-8").read()):
        name = f"{crate}::{head[1]}"
        if len(re.findall(SLICE, head[2])) >= 6:
            wide.append(name)
            if re.search(r": &(?:'a )?mut \[", head[2]):
                written.append(name)
        if re.search(SLICE + r",\s*(?:n|count|size): usize", head[2]):
            counted.append(name)
for what, names in (("take six slices or more", wide), ("of them write one", written), ("take a slice and then a count of it", counted)):
    print(f"{len(names)} {what}")
    if len(sys.argv) > 1:
        print("  " + " ".join(names))
