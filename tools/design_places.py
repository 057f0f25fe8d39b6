#!/usr/bin/env python3
"""Lists the places in crates/*/src that a point of docs/DESIGN-PASS.md may touch.

    tools/design_places.py [COMMIT]         the tree as it stands, or as COMMIT has it: a count for each point
    tools/design_places.py [COMMIT] -v      the places too

Each point is found by the text alone, so what it lists are candidates: the page says what became of each.
"""

import collections
import re
import subprocess
import sys

NAME = r"[A-Za-z_][A-Za-z0-9_]*"


def sources(commit):
    """Each .rt file of crates/*/src: its path and its text."""
    listed = ["git", "ls-tree", "-r", "--name-only", commit] if commit else ["git", "ls-files"]
    paths = subprocess.run(listed, capture_output=True, text=True, check=True).stdout.split()
    for path in sorted(paths):
        if not re.fullmatch(r"crates/\w+/src/\w+\.rt", path):
            continue
        if commit:
            shown = ["git", "show", f"{commit}:{path}"]
            yield path, subprocess.run(shown, capture_output=True, text=True, check=True).stdout
        else:
            with open(path, encoding="utf-8") as file:
                yield path, file.read()


def code(text):
    """The lines that are neither comments nor imports, with their numbers."""
    for number, line in enumerate(text.split("\n"), 1):
        if not re.match(r"\s*(//|(ghost )?use |pub use )", line):
            yield number, line


def functions(text):
    """Each function: its name, the line that it begins at, its clauses and its body."""
    lines = text.split("\n")
    for start, line in enumerate(lines):
        head = re.match(rf"( *)(pub )?(extern \"C\" )?fn ({NAME})", line)
        if not head:
            continue
        indent = head.group(1)
        end = start
        while end + 1 < len(lines) and lines[end] != indent + "}" and not lines[end].endswith(" {}"):
            end += 1
        body = next((i for i in range(start, end + 1) if lines[i] == indent + "{" or lines[i].endswith(") {")), start)
        yield head.group(4), start + 1, "\n".join(lines[start:body]), "\n".join(lines[body : end + 1])


def matching(pattern):
    """The lines of code that a pattern is found in."""

    def find(files):
        for path, text in files:
            for number, line in code(text):
                if re.search(pattern, line) and not re.match(r"\s*(requires|ensures|×|≡|→)", line):
                    yield f"{path}:{number}: {line.strip()}"

    return find


def shape(body):
    """A body with its own names numbered as they come, and without the numbers and types that it says."""
    names = {}

    def numbered(match):
        word = match.group(0)
        if word in {"if", "else", "match", "while", "for", "in", "let", "mut", "return", "true", "false", "loop", "self"}:
            return word
        if re.fullmatch(r"\d\w*", word):
            return "0"
        return names.setdefault(word, f"n{len(names)}")

    body = re.sub(r"//.*", "", body)
    body = re.sub(r"\s+", " ", body).replace(",)", ")").replace(", )", ")")
    return re.sub(r"\w+", numbered, body)


def twins(files):
    """Functions of one shape: those whose bodies are one but for names, types and numbers."""
    groups = collections.defaultdict(list)
    for path, text in files:
        for name, line, _, body in functions(text):
            groups[shape(body)].append(f"{path}:{line}: {name}")
    for form, group in sorted(groups.items()):
        if len(group) > 1 and len(re.findall(r"\w+", form)) > 3:
            yield "  ".join(group)


def parts(clauses):
    """The facts that the requires of a function join, as it writes them."""
    for clause in re.findall(r"requires(?: \w+)? \{(.*?)\}\s*(?=requires|ensures|$)", clauses, re.S):
        for part in clause.split("×"):
            part = re.sub(r"\s+", " ", part).strip()
            while part.startswith("(") and part.endswith(")"):
                part = part[1:-1].strip()
            yield part


def repeated(files):
    """The facts that three functions or more ask of their callers."""
    told = collections.defaultdict(set)
    for path, text in files:
        for name, line, clauses, _ in functions(text):
            for part in parts(clauses):
                told[part].add(f"{path}:{line} {name}")
    for part, places in sorted(told.items(), key=lambda item: -len(item[1])):
        if len(places) > 2:
            yield f"{len(places)} functions: {part}"


def together(files):
    """Two parameters, name and type, that three functions or more take both."""
    taken = collections.defaultdict(set)
    for path, text in files:
        for name, line, clauses, _ in functions(text):
            head = re.split(r"\)\s*(->|requires|ensures|$)", clauses, maxsplit=1)[0]
            found = sorted(set(re.findall(rf"({NAME}): ([^,()]+)", head)))
            for i, first in enumerate(found):
                for second in found[i + 1 :]:
                    taken[(first, second)].add(f"{path}:{line} {name}")
    for pair, places in sorted(taken.items(), key=lambda item: -len(item[1])):
        if len(places) > 2:
            yield f"{len(places)} functions: " + ", ".join(f"{n}: {t.strip()}" for n, t in pair)


POINTS = [
    ("1a enums of our own", matching(r"^\s*(pub )?enum ")),
    ("1b flags and numbers in structs and variants", matching(rf"^\s*(pub )?(found|number|kind|op|check|thread): (bool|u8|usize|Check)\b")),
    ("1c arms by number", matching(r"^\s*\d+ =>")),
    ("2  functions of one shape", twins),
    ("3  loops that are not `for`", matching(r"\b(while|loop)\b")),
    ("4a numbers to bytes and back by hand", matching(r"\b256\b|0x1_0000_0000|4294967296")),
    ("4b casts", matching(r"\bas (u8|u16|u32|u64|usize)\b")),
    ("5a facts that three functions or more ask", repeated),
    ("5b parameters that three functions or more take together", together),
    ("6  arrays in structs, and lengths beside buffers", matching(r"^\s*(pub )?\w+: \[u|\b(kept|used|size|count): usize")),
    ("7  functions as values", matching(r"\bfn\(|\bdyn\b|\bFn(Mut|Once)?\(")),
]


def main():
    arguments = [a for a in sys.argv[1:] if a != "-v"]
    files = list(sources(arguments[0] if arguments else None))
    for title, find in POINTS:
        found = list(find(files))
        print(f"{len(found):5} {title}")
        if "-v" in sys.argv:
            for place in found:
                print("      " + place)


if __name__ == "__main__":
    main()
