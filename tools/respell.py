#!/usr/bin/env python3
"""Brings the names of this repository's definitions and lemmas to today's spelling: words in snake case, types in camel case.

usage: python3 tools/respell.py        at the top, once, right after the kit's own script; respell.tsv, beside it, lists old name and new

Only .antt files, and of .rt files the clauses and ghost items, are turned: code, comments, strings, inputs and outputs keep their words. A name that a file brings
in from another library keeps that library's spelling there, and so do the names that the prover makes (goals, and what stands behind `c.` and `l.`).
"""
import os
import re

ROOT = "crates"
WORD = r"[^\W\d][\w'′]*(?:-[\w'′]+)*"
USE = re.compile(r"\buse\s+([\w.]+?)\.?\{([^}]*)\}")
MADE = re.compile(r"(?:\bgoal\.|(?<![\w'.\-])[cl]\.)$")


def table():
    with open(os.path.join(os.path.dirname(os.path.abspath(__file__)), "respell.tsv"), encoding="utf-8") as f:
        return dict(line.rstrip("\n").split("\t") for line in f if line.strip())


def is_own(path, own):
    parts = path.split(".")
    return len(parts) > 1 and parts[0] == "Rattle" and parts[1] in own


def foreign(text, own):
    """The names that a file has from other libraries, under their own spelling."""
    names = set()
    for path, items in USE.findall(text):
        if not is_own(path, own):
            names |= {item.strip() for item in items.split(",") if " as " not in item}
    return names


def turn_use(match, names, own):
    path, items = match.groups()
    out = []
    for item in items.split(","):
        head, found, alias = item.strip().partition(" as ")
        if is_own(path, own):
            head = names.get(head, head)
        alias = names.get(alias, alias)
        out.append(head if not found or head == alias else head + " as " + alias)
    return match.group(0).replace(items, ", ".join(out))


def turn_words(text, names, kept):
    def word(match):
        name = match.group(0)
        if name in kept or name not in names or MADE.search(text, max(0, match.start() - 6), match.start()):
            return name
        return names[name]

    return re.sub(r"(?<![\w'′\-])" + WORD, word, text)


def turn(text, names, own):
    """One stretch of text in the logic, its use lines turned by themselves."""
    kept = foreign(text, own)
    out, at = [], 0
    for match in USE.finditer(text):
        out.append(turn_words(text[at:match.start()], names, kept))
        out.append(turn_use(match, names, own))
        at = match.end()
    out.append(turn_words(text[at:], names, kept))
    return "".join(out)


def turn_antt(text, names, own):
    """All but comments. Of a file in the logic, each comment is a run of lines or the end of one."""
    parts = re.split(r"((?:^|(?<=\s))--(?=\s|$)[^\n]*)", text)
    code = turn("\0".join(parts[0::2]), names, own).split("\0")
    return "".join(c + (parts[2 * i + 1] if 2 * i + 1 < len(parts) else "") for i, c in enumerate(code))


def set_apart(lines):
    """Where a name that a source file brings in is now that of a function of the file: brings it in as NAME_of."""
    functions = {found for line in lines for found in re.findall(r"^\s*(?:pub(?:\(crate\))? )?fn (\w+)", line)}
    alike = {}
    for i, line in enumerate(lines):
        if re.match(r"\s*ghost use\b", line):
            for path, items in USE.findall(line):
                for item in items.split(","):
                    if item.strip() in functions:
                        alike[item.strip()] = item.strip() + "_of"
            for name, other in alike.items():
                lines[i] = re.sub(r"(?<=[{ ])" + name + r"(?=[,}])", name + " as " + other, lines[i])
    return [turn_words(line, alike, set()) if is_clause(line) else line for line in lines]


def is_clause(line):
    return re.match(r"\s*((ghost(?! use)|ensures|requires)\b|\| \w+ (\w+ )?↦)", line)


def turn_rt(text, names, own):
    """Of a source file, ghost items and clauses: the lines that begin with ghost, ensures or requires, or that give a case of one."""
    kept = foreign(text, own)
    lines = []
    for line in text.split("\n"):
        if re.match(r"\s*ghost use\b", line):
            line = USE.sub(lambda match: turn_use(match, names, own), line)
        elif is_clause(line):
            line = turn_words(line, names, kept)
        lines.append(line)
    return "\n".join(set_apart(lines))


def main():
    names = table()
    own = set(os.listdir(ROOT))
    for folder, dirs, files in os.walk(ROOT):
        dirs[:] = sorted(d for d in dirs if d not in ("out", "must-fail"))
        for file in sorted(files):
            if not file.endswith((".antt", ".rt")):
                continue
            path = os.path.join(folder, file)
            with open(path, encoding="utf-8") as f:
                old = f.read()
            new = (turn_antt if file.endswith(".antt") else turn_rt)(old, names, own)
            if new != old:
                with open(path, "w", encoding="utf-8") as f:
                    f.write(new)


main()
