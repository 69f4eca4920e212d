#!/usr/bin/env python3
"""Brings to snake case what tools/respell.py left: parameters, local names and import aliases of specs/ and proofs/*.antt.

usage: python3 tools/snake.py CRATES-FOLDER

Names that a file imports from the kit keep theirs, and so do files of a function's proof, whose hyphened names are
Rattle's own. A name whose new spelling the file has already is left and printed.
"""
import os
import re
import sys

HYPHENED = r"(?<![\w'.→-])[A-Za-z][\w'₀-₉]*(?:-[\w'₀-₉≤≥]+)+"


def imported(text):
    names = set()
    for inside in re.findall(r"(?m)^(?:pub )?use [^\n{]*\{([^}]*)\}", text):
        names |= {name.strip().split(" as ")[0] for name in inside.split(",")}
    return names


def turned(path):
    text = open(path, encoding="utf-8").read()
    code = "\n".join(line.split("--")[0] for line in text.split("\n"))
    kit = imported(text)
    for old in sorted({m.group(0) for m in re.finditer(HYPHENED, code)} - kit):
        new = old.lower().replace("-", "_") if old[0].islower() else old
        if new == old or re.search(rf"(?<![\w'-]){re.escape(new)}(?![\w'-])", code):
            print(f"{path}: {old} stays")
            continue
        lines = []
        for line in text.split("\n"):
            part = line.split("--", 1)
            part[0] = re.sub(rf"(?<![\w'-]){re.escape(old)}(?![\w'-])", new, part[0])
            lines.append("--".join(part))
        text = "\n".join(lines)
        print(f"{path}: {old} is {new}")
    return text


for folder, inner, names in os.walk(sys.argv[1]):
    inner[:] = sorted(name for name in inner if name != "out")
    for name in sorted(names):
        path = os.path.join(folder, name)
        if re.search(r"/(specs|proofs)/\w+\.antt$", path):
            text = turned(path)
            with open(path, "w", encoding="utf-8") as file:
                file.write(text)
