#!/usr/bin/env python3
"""Lists functions of crates/*/src whose bodies are the same but for names, types, numbers and what they call.

Run at the top: python3 tools/twins.py [LINES]    (bodies of at least so many lines, 4 if not given; a tree elsewhere: TWINS_ROOT=DIR)
A group is a place to look, not a verdict: a body that only hands its arguments on looks like any other such body.
"""
import collections, glob, os, re, sys

least = int(sys.argv[1]) if len(sys.argv) > 1 else 4
root = os.environ.get("TWINS_ROOT", ".")
KEYWORDS = {"let", "mut", "for", "in", "while", "if", "else", "match", "return", "as", "true", "false", "Some", "None", "Ok", "Err"}
groups = collections.defaultdict(list)
for path in sorted(glob.glob(f"{root}/crates/*/src/**/*.rt", recursive=True)):
    text = open(path, encoding="utf-8").read()
    for head in re.finditer(r"^( *)(?:pub )?fn (\w+)", text, re.M):
        indent = head[1]
        body = re.compile(rf"^{indent}(?:[^\n]* )?\{{\n(.*?)^{indent}\}}$", re.S | re.M).search(text, head.start())
        if not body or body[1].count("\n") < least:
            continue
        lines = [re.sub(r"//.*", "", line) for line in body[1].split("\n")]
        shape = re.sub(r"[A-Za-z_][\w:]*", lambda m: m[0] if m[0] in KEYWORDS else "x", "\n".join(lines))
        shape = re.sub(r"\b\d[\w.]*", "0", shape)
        shape = re.sub(r"\s+", " ", shape)
        # a run of arguments counts as one
        shape = re.sub(r"(x(\[x\])?, )+x?", "x,", shape)
        groups[shape].append(f"{path.removeprefix(root + '/').split('/')[1]}::{head[2]}")
found = [names for names in groups.values() if len(names) > 1]
for names in sorted(found):
    print(" ".join(names))
print(f"{len(found)} groups, {sum(map(len, found))} functions")
