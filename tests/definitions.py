#!/usr/bin/env python3
"""Shows that no definition a reader must believe rests on one that docs/PROMISES.md does not list, and that what is cited is there.

A definition is what a proof can look into: `unfoldable`, `abbrev`, a record or a data type with its constructors. A plain
`pub name : type` is opaque: only its type is seen, which the prover has checked, so it is a law. A listed file is one of a
crate's specs/, or of its proofs/ where a definition has proofs in it. For every listed file this holds:
- it is there, and has no public law of its own;
- what it takes from an unlisted file of the project, by a `use` or by its whole path, is a law there;
- the structs and enums it speaks of stand in src/, where the reader finds them.
And every must-fail edit stands in docs/PROMISES.md, every edit that it names is there, and each text that an edit replaces
stands once in its file; every clause that a file cites, as
SPECIFICATION with its number, stands in docs/SPECIFICATION.md; and no file names a paper that is not in the repository.
Run it at the repository's root; the exit status is 0 when all of it holds.
"""
import os
import re
import sys

NAME = r"[^\s(){}\[\],;:.`]+"  # a name of antt, as `next`, `next'` or `Lex≤`
USE = re.compile(rf"^\s*(?:pub )?use Rattle\.(\w+)\.(specs|proofs)\.([\w.]+?)(?:\.\{{([^}}]*)\}}| as ({NAME}))$", re.M)
WHOLE = re.compile(rf"Rattle\.(\w+)\.(specs|proofs)\.([\w.]+)\.({NAME})")  # a name by its whole path, outside a `use`
GAP = r"(?: |\s*\n\s*(?://[/!]?|--|#|\*)?\s*)"  # a space, or a line's end inside a comment
CLAUSE = r"\d+(?:\.\d+)?"
CITED = re.compile(rf"SPECIFICATION{GAP}({CLAUSE}(?:(?:,|{GAP}and|{GAP}to|,{GAP}and){GAP}{CLAUSE})*)")
OUTSIDE = re.compile(rf"[Dd]ocuments?{GAP}0[12]|\.\./shared|[R]EADINGS|[D]ESIGN\.md|[P]ROVING|[T]ODO-CLAUSE")
SPECIFICATION = os.path.join("docs", "SPECIFICATION.md")


def listed():
    text = open("docs/PROMISES.md", encoding="utf-8").read()
    part = text.split("## What a reader must believe", 1)[1].split("\n## ", 1)[0]
    files = []
    for crate, where, several, one in re.findall(r"`(\w+)/(specs|proofs)/(?:\{([\w, ]+)\}|(\w+))`", part):
        for name in several.split(",") if several else [one]:
            files.append((crate, where, name.strip()))
    return files


def path(crate, where, file):
    return f"crates/{crate}/{where}/{file.replace('.', '/')}.antt"


def source(crate, where, file):
    return open(path(crate, where, file), encoding="utf-8").read()


def definitions(text):
    """The names that a proof can look into."""
    names = set(re.findall(r"^\s*(?:unfoldable |abbrev |pub )*(?:unfoldable|abbrev) (?:pub )?([^\s:({]+)\s*[:({]", text, re.M))
    names |= set(re.findall(r"^\s*(?:pub )?(?:record|data) ([^\s:({]+)", text, re.M))
    return names | constructors(text)


def constructors(text):
    """The constructors of the data types."""
    names, data = set(), None
    for line in text.split("\n"):
        indent = len(line) - len(line.lstrip())
        if data is not None and line.strip() and indent <= data:
            data = None
        begun = re.match(r"\s*(?:pub )?([^\s:({]+) :", line)
        if data is not None and begun:
            names.add(begun.group(1))
        if re.match(r"\s*(?:pub )?data ", line):
            data = indent
    return names


def laws(text):
    """Public names with a type and a proof that nothing can look into; the fields of a record are none."""
    found, record = [], None
    for line in text.split("\n"):
        indent = len(line) - len(line.lstrip())
        if record is not None and line.strip() and indent <= record:
            record = None
        if re.match(r"\s*(?:pub )?(?:record|data) ", line):
            record = indent
        law = re.match(r"\s*pub ([^\s:({]+)\s*[:({]", line)
        if law and record is None:
            found.append(law.group(1))
    return found


def taken(text):
    """What a file takes of the project's crates: (crate, specs or proofs, file, the names), a `use` or a whole path each."""
    found = []
    for crate, where, file, names, alias in USE.findall(text):
        if alias:
            used = set(re.findall(rf"(?<![\w.'-]){re.escape(alias)}\.({NAME})", text))
        else:
            used = {n.split(" as ")[0].strip() for n in names.split(",")}
        found.append((crate, where, file, used))
    found += [(crate, where, file, {name}) for crate, where, file, name in WHOLE.findall(USE.sub("", text))]
    return [of_file(*it) for it in found if os.path.isdir(f"crates/{it[0]}")]


def of_file(crate, where, file, names):
    """The same, where the names are constructors: those of the data type T of a file F stand in F.T."""
    above, _, of = file.rpartition(".")
    if os.path.exists(path(crate, where, file)) or not os.path.exists(path(crate, where, above)):
        return crate, where, file, names
    return crate, where, above, {of} | names


def rests_on(crate, where, file, believed):
    """What the file takes from unlisted files and can look into, and what it takes from no file that is there."""
    wrong = []
    for other, part, of, used in taken(source(crate, where, file)):
        # What rt makes of the structs and enums of src/ has no file.
        if (other, part, of) in believed or (part, of.split(".")[0]) == ("specs", "declared"):
            continue
        there = os.path.exists(path(other, part, of))
        inside = definitions(source(other, part, of)) if there else used
        wrong += [f"{other}/{part}/{of}: {n}" for n in sorted(used & inside)]
    return wrong


def edits():
    """The edits that are there and not named, and those that are named and not there."""
    there = {f"{crate}/{name[:-5]}" for crate in os.listdir("crates") if os.path.isdir(f"crates/{crate}/must-fail")
             for name in os.listdir(f"crates/{crate}/must-fail")}
    named, edit_last = set(), False
    for line in open("docs/PROMISES.md", encoding="utf-8"):
        edit_last = line.startswith("|") and (edit_last or line.rstrip().endswith("| Edit |"))
        cell = line.rstrip().rstrip("|").rsplit("|", 1)[-1] if edit_last else ""
        for crate, several, one in re.findall(r"(\w+)/(?:\{([\w, -]+)\}|([\w-]+))", cell):
            named |= {f"{crate}/{name.strip()}" for name in (several.split(",") if several else [one])}
    return sorted(there - named), sorted(n for n in named - there if n.split("/")[0] in os.listdir("crates"))


def fits(crate, lines):
    """Whether an edit can be applied: its pairs of lines old and new in turn, each old text once in its file as it is by then."""
    file, old, before, after = "", "", {}, {}
    for line in lines:
        key, _, word = line.partition(":")
        word = word.removeprefix(" ")
        if key == "file":
            file = word.strip()
        elif key == "old":
            old = word
        elif key == "new":
            if file not in before:
                where = f"crates/{crate}/{file}"
                if not file.startswith(("src/", "specs/", "proofs/")) or not os.path.isfile(where):
                    return False
                before[file] = after[file] = open(where, encoding="utf-8").read()
            if not old or after[file].count(old) != 1:
                return False
            after[file], old = after[file].replace(old, word), ""
    return not old and before != after


def unfit():
    """The edits that cannot be applied: rt calls such an edit bad, and the gate fails."""
    wrong = []
    for crate in sorted(os.listdir("crates")):
        folder = f"crates/{crate}/must-fail"
        for name in sorted(os.listdir(folder)) if os.path.isdir(folder) else []:
            with open(f"{folder}/{name}", encoding="utf-8") as edit:
                if not fits(crate, edit.read().split("\n")):
                    wrong.append(f"{crate}/{name[:-5]}")
    return wrong


def every_file():
    """The repository's files as text: (path, text). What rt, cargo and git make is left out."""
    for folder, inner, names in os.walk("."):
        inner[:] = sorted(name for name in inner if name not in ("target", "out", ".git", ".drafts", "__pycache__"))
        for name in sorted(names):
            where = os.path.relpath(os.path.join(folder, name))
            with open(where, encoding="utf-8", errors="replace") as file:
                yield where, file.read()


def clauses():
    """The clauses, bold numbers where a line begins, and the parts, numbered headings; none where the page is not there."""
    if not os.path.exists(SPECIFICATION):
        return set()
    with open(SPECIFICATION, encoding="utf-8") as file:
        text = file.read()
    return set(re.findall(r"^\*\*(\d+\.\d+)\*\*", text, re.M)) | set(re.findall(r"^## (\d+)\. ", text, re.M))


def cited(where, text):
    """The clauses that a text cites, each with the place; in the specification itself also those that stand in brackets."""
    several = [(m.start(), m.group(1)) for m in CITED.finditer(text)]
    found = [(at, clause) for at, part in several for clause in re.findall(CLAUSE, part)]
    if where == SPECIFICATION:
        brackets = [(m.start(), m.group(1)) for m in re.finditer(r"\(([^()\n]*)\)", text)]
        found += [(at, clause) for at, part in brackets for clause in re.findall(r"(?<![\d.,])\d+\.\d+(?![\d.])", part)]
    return found


def papers():
    """Clauses that are cited and not there, and papers outside the repository that are named, a line for each; the citations counted."""
    there, wrong, count = clauses(), [], 0
    for where, text in every_file():
        found = cited(where, text)
        count += len(found)
        faults = [(at, f"cites clause {clause}, which {SPECIFICATION} does not have") for at, clause in found if clause not in there]
        faults += [(m.start(), f"names {' '.join(m.group().split())}, which the repository does not have") for m in OUTSIDE.finditer(text)]
        wrong += [f"{where}:{text.count(chr(10), 0, at) + 1}: {what}" for at, what in sorted(faults)]
    return wrong, count


def main():
    files = listed()
    believed = set(files)
    faults = 0
    for it in files:
        label = "/".join(it)
        if not os.path.exists(path(*it)):
            print(f"{label}: listed, but not there")
            faults += 1
            continue
        for name in laws(source(*it)):
            print(f"{label}: has the law {name}")
            faults += 1
        for what in rests_on(*it, believed):
            print(f"{label}: rests on {what}, which is not listed")
            faults += 1
    unnamed, missing = edits()
    for edit in unnamed:
        print(f"{edit}: a must-fail edit that docs/PROMISES.md does not name")
    for edit in missing:
        print(f"{edit}: named in docs/PROMISES.md, but not there")
    lost = unfit()
    for edit in lost:
        print(f"{edit}: this must-fail edit cannot be applied: each old text has to stand once in its file")
    wrong, citations = papers()
    for line in wrong:
        print(line)
    faults += len(unnamed) + len(missing) + len(lost) + len(wrong)
    print(f"{len(files)} files of definitions, {citations} citations of clauses, {faults} faults")
    return 1 if faults else 0


if __name__ == "__main__":
    sys.exit(main())
