#!/usr/bin/env python3
"""Spells the repository's own definitions, fields and lemmas as today's Rattle does.

usage: tools/spell.py [--check]      at the top of the repository

A definition, a field or a constructor is in snake case (`laneWith` is lane_with, `side-plan` is side_plan). In a lemma's name a dash stays where it
joins the names of two definitions (`length-keys`), and is `_` before or behind a plain word. It goes by words, over src/ (clauses and imports alone have
such words), specs/, proofs/ and must-fail/; strings, functions of src/ and exported names have none of them. A name that the library has too is left.
Names that would fall together with another are printed, and left as they are unless TWINS below names another word.
"""
import collections
import glob
import os
import re
import sys

KIT = "/opt/rattle/rattle"
W = r"[^\s(){}\[\].;,@\"«»\\`]+"
DECL = re.compile(r"^( *)((?:(?:abbrev|unfoldable|pub|irrelevant) )*)([^\s:(){}\[\].;,@\"«»\\`]+) :(?: |$)")
MODULES = re.compile(r"(Goals|Given|Tie|Lts|Statement|Code)\b")
# A name that would fall together with another gets this one.
TWINS = {
    "all-rows": "every_row",
    "boundaries-cut": "boundaries_are_cut",
    "lanes-cut": "lanes_are_cut",
    "boundaries-sorted": "boundaries_are_sorted",
    "lanes-sorted": "lanes_are_sorted",
    "crosswalks-sorted": "crosswalks_are_sorted",
    "boundaryLines": "boundary_lines_of",
    "centerLines": "center_lines_of",
    "leftEdges": "left_edges_of",
    "rightEdges": "right_edges_of",
    "stopLines": "stop_lines_of",
    "byFirst": "found_by_first",
    "came_from": "came_from_lem",
    "center-drawn": "center_drawn_lem",
    "center-onto": "center_onto_lem",
    "center-span": "center_span_lem",
    "centers-short": "centers_are_short",
    "centers-stored": "centers_are_stored",
    "cut_by": "cut_by_lem",
    "firstLine": "first_line_of",
    "secondLine": "second_line_of",
    "grows_at": "grows_at_lem",
    "ids_at": "ids_at_lem",
    "ids-left": "ids_are_left",
    "ids-where": "ids_where_lem",
    "in_reach": "in_reach_lem",
    "junction-passes": "junction_passes_lem",
    "road-passes": "road_passes_lem",
    "lines_fit": "lines_fit_lem",
    "lines-in": "lines_in_lem",
    "row_cut": "row_cut_lem",
    "row_has": "row_has_lem",
    "rule_fits": "rule_fits_lem",
    "sidePlan": "side_plan_in",
    "slot-in": "slot_in_lem",
}
# The new name is also that of a function, which a proof has as a step: the two don't meet.
APART = {"came_from", "command_of", "first_place", "ids_left", "named_back", "row_cut", "row_has", "row_passes"}


def files():
    for kind in ("specs", "proofs"):
        for p in sorted(glob.glob(f"crates/*/{kind}/**/*.antt", recursive=True)):
            if "/out/" not in p:
                yield kind, p


def snake(word):
    return re.sub(r"(?<=[a-z0-9])([A-Z])(?![A-Z])", lambda m: "_" + m.group(1).lower(), word)


def is_word(n):
    return bool(re.fullmatch(r"[a-z][\w'₀-₉-]*", n)) and ("-" in n or re.search(r"[a-z0-9][A-Z]", n))


def library():
    names = set()
    for p in glob.glob(KIT + "/**/*.antt", recursive=True):
        with open(p, encoding="utf-8", errors="replace") as f:
            for line in f:
                m = DECL.match(line)
                if m:
                    names.add(m.group(3))
    return names


def main(check):
    lib = library()
    kinds = collections.defaultdict(set)
    words = collections.defaultdict(set)
    texts = {}
    for kind, p in files():
        with open(p, encoding="utf-8") as f:
            t = f.read()
        texts[p] = t
        answer = p.endswith("/Proof.antt")
        for line in t.split("\n"):
            m = DECL.match(line)
            if m and not line.lstrip().startswith("--"):
                n = m.group(3)
                # an answer is named after its goal, which Rattle names
                if answer and re.search(r": (\(.*?\) → )*tie\.|: \{M", line):
                    continue
                kinds[n].add(kind)
        for w in set(re.findall(W, t)):
            words[w].add(p)
    for p in sorted(glob.glob("crates/*/src/**/*.rt", recursive=True)):
        with open(p, encoding="utf-8") as f:
            texts[p] = f.read()
        for w in set(re.findall(W, texts[p])):
            words[w].add(p)
    for p in sorted(glob.glob("crates/*/must-fail/*.edit")):
        with open(p, encoding="utf-8") as f:
            texts[p] = f.read()
    defined = {n for n, k in kinds.items() if "specs" in k} | lib
    plain_defined = {snake(n).replace("-", "_") for n in kinds if "specs" in kinds[n]} | {n for n in lib if "-" not in n}
    new = {}
    for n in sorted(kinds):
        if n in TWINS:
            new[n] = TWINS[n]
            continue
        if not is_word(n) or n in lib:
            continue
        if "specs" in kinds[n]:
            to = snake(n).replace("-", "_")
        else:
            parts = [snake(x) for x in n.split("-")]
            to = parts[0]
            for a, b in zip(parts, parts[1:]):
                joins = a in plain_defined and b in plain_defined and not a.isdigit() and not b.isdigit()
                to += ("-" if joins else "_") + b
        if to != n:
            new[n] = to
    back = collections.defaultdict(list)
    for n, to in new.items():
        back[to].append(n)
    clashes = []
    for to, ns in sorted(back.items()):
        # a definition may have the name of the function whose contract cites it, so only words of specs/ and proofs/ count here
        everyone = [(n, words[n]) for n in ns] + ([(to, {p for p in words[to] if p.endswith(".antt")})] if to in words else [])
        if len(everyone) > 1:
            seen = collections.Counter(p for _, ps in everyone for p in ps)
            both = [p for p, k in seen.items() if k > 1]
            if both and to not in APART and (to in kinds and to not in TWINS or to in lib or len(ns) > 1):
                clashes.append((to, [n for n, _ in everyone], both))
    for to, ns, both in clashes:
        print("falls together:", to, "|", ", ".join(ns), "|", " ".join(both[:3]), len(both))
    if check:
        print(len(new), "names")
        return
    for to, ns, both in clashes:
        for n in ns:
            new.pop(n, None)
    pattern = re.compile(r"--[^\n]*|//[^\n]*|#[^\n]*|\"(?:[^\"\\]|\\.)*\"|" + W)

    def turn(m):
        w = m.group(0)
        if w.startswith(("--", "//")) or (w.startswith("#") and " " in w):
            # in a comment, names in the old spelling of two cases, and names in backquotes
            w = re.sub(r"`([^`\s]+)`", lambda k: "`" + ".".join(new.get(x, x) for x in k.group(1).split(".")) + "`", w)
            return re.sub(r"\b[a-z]+[A-Z]\w*", lambda k: new.get(k.group(0), k.group(0)), w)
        if w.startswith('"'):
            return w
        if w in TWINS and w == snake(w).replace("-", "_") and (p.endswith(".rt") or t[m.start() - 1 : m.start()] == "."):
            return w
        return new.get(w, w)

    n = 0
    for p, t in texts.items():
        out = pattern.sub(turn, t)
        if out != t:
            n += 1
            with open(p, "w", encoding="utf-8") as f:
                f.write(out)
    print(len(new), "names,", n, "files")


if __name__ == "__main__":
    os.chdir(os.path.join(os.path.dirname(os.path.realpath(__file__)), ".."))
    main("--check" in sys.argv)
