#!/usr/bin/env python3
"""Lists where the code may still be written in an older form, point by point, for docs/DESIGN-PASS.md.

usage: tools/forms.py [COMMIT]      the sources at a commit, or those of the checkout

Each list holds candidates: a reader says which of them are places. Tables of numbers and tests are left out.
"""
import collections
import difflib
import re
import subprocess
import sys

FUNCTION = re.compile(r'^( *)(pub(?:\(crate\))? )?(?:final )?fn (\w+)', re.M)


def git(*words):
    return subprocess.check_output(['git', *words], text=True)


def sources(commit):
    """The text of each source file, by its path, without tests and without lines of numbers."""
    names = git('ls-tree', '-r', '--name-only', commit) if commit else git('ls-files', '-co', '--exclude-standard')
    for name in sorted(set(names.split())):
        if re.fullmatch(r'crates/\w+/src/.*\.rt', name):
            text = git('show', f'{commit}:{name}') if commit else open(name).read()
            text = text.split('#[cfg(test)]')[0]
            yield name[len('crates/'):], text


def found(files, pattern):
    for name, text in files:
        for number, line in enumerate(text.split('\n'), 1):
            if re.search(pattern, line) and not line.strip().startswith('//'):
                yield f'{name}:{number}: {line.strip()}'


def functions(files):
    """Each function's name, its head and its body."""
    for name, text in files:
        starts = list(FUNCTION.finditer(text))
        for start, after in zip(starts, starts[1:] + [None]):
            whole = text[start.start():after.start() if after else len(text)]
            end = re.search(rf'^{start[1]}(\}}|\{{\}})', whole, re.M)
            whole = whole[:end.end()] if end else whole
            body = re.search(rf'^{start[1]}\{{(.*)\}}|\) *(?:-> [^{{]*)?\{{(.*)\}}', whole, re.M | re.S)
            yield name, start[3], whole, (body[1] or body[2] or '') if body else ''


def twins(files):
    """Pairs of functions whose bodies are the same but for names and numbers, or nearly."""
    shapes = []
    for name, function, whole, body in functions(files):
        words = re.findall(r'\w+|[^\w\s]', re.sub(r'//.*', '', body))
        shape = ['w' if re.match(r'[A-Za-z_]', w) and w not in ('for', 'in', 'if', 'match', 'return', 'let', 'mut', 'while', 'loop') else
                 '0' if w[0].isdigit() else w for w in words]
        if len(shape) >= 12:
            shapes.append((f'{name} {function}', shape, [w for w in words]))
    for i, (one, a, words) in enumerate(shapes):
        for other, b, others in shapes[i + 1:]:
            if abs(len(a) - len(b)) * 10 > len(a):
                continue
            alike = difflib.SequenceMatcher(None, a, b, autojunk=False).ratio()
            same = difflib.SequenceMatcher(None, words, others, autojunk=False).ratio()
            if alike >= 0.94 and same >= 0.62:
                yield f'{one} / {other} ({same:.2f})'


def repeated(files):
    """Clauses that stand in three contracts or more, and parameters that three functions or more take together."""
    clauses, together = collections.Counter(), collections.Counter()
    for name, function, whole, body in functions(files):
        for clause in set(m[2] for m in re.finditer(r'(requires|ensures)\*?[ \w]*\{ *(.*?) *\}\s*$', whole, re.M)):
            clauses[clause] += 1
        head = whole.split('\n    requires')[0].split('\n    ensures')[0]
        names = sorted(n for n in re.findall(r'[(,]\s*(\w+):', head) if n not in ('heap', 'self'))
        for i, one in enumerate(names):
            for other in names[i + 1:]:
                together[one, other] += 1
    for clause, count in clauses.most_common():
        if count >= 3:
            yield f'{count} times {clause}'
    for (one, other), count in together.most_common():
        if count >= 4:
            yield f'{count} functions take {one} and {other}'


def main():
    commit = sys.argv[1] if len(sys.argv) > 1 else None
    files = list(sources(commit))
    points = [
        ('1 enums, flags, answers yes or no, numbers', found(files, r'^\s*(pub |pub\(crate\) )?enum |^\s*(pub |pub\(crate\) )?\w+: bool|-> bool|-> u8$|number: u8|let mut \w+ = (true|false);')),
        ('2 functions that look alike', twins(files)),
        ('3 loops', found(files, r"^\s*('\w+: )?(for|while|loop)\b")),
        ('4 equality, conversion and printing', found(files, r'\bfn (same|to_\w+|of_\w+|from\w*|number|place|\w*name|\w+_text|write\w*|fmt|digit\w*|push_(word|element|option))\b')),
        ('5 clauses and parameters', repeated(files)),
        ('6 arrays with a length beside them', found(files, r'^\s*(pub |pub\(crate\) )?(used|count|size|degree|length): u|\[[^\];]+; [A-Z_]+\],?$|let mut \w+ = \[.*; \w+\]')),
        ('7 functions in values, boxes', found(files, r'\bfn\(|\bdyn |\bBox<|\[fn\b')),
    ]
    for title, lines in points:
        lines = list(lines)
        print(f'== {title}: {len(lines)}')
        for line in lines:
            print(line)


main()
