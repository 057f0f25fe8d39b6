#!/usr/bin/env python3
"""Checks what respell.py did, and shares no code with it: respell_check.py BEFORE AFTER, two trees.

It takes the pairs (old name, new name) from the two trees alone, token by token, and asks
  - that each file has the same tokens at the same places but for names, and the same lines;
  - that one old name has one new name in the whole repository, and in each file one new name one old name;
  - that names which specs/ declares do not fall together in all crates;
  - that Rust code and strings are the same, and that no other file of BEFORE changed.
"""
import collections
import os
import re
import sys

TOKEN = re.compile(r'([\s(){}.;,@"«»`/])')
TURNED = re.compile(r"(README\.md|rust/README\.md|docs/[^/]*\.md|crates/[^/]*/(src|specs|proofs)/.*\.(antt|rt))$")
GHOST = re.compile(r"(ghost use [^;]*;|(requires|ensures|ghost)\*?[^{};]*\{[^{}]*(\{[^{}]*\}[^{}]*)*\})")
STRING = re.compile(r'"(?:\\.|[^"\\])*"')
DECLARED = re.compile(r"^(?:(?:pub|abbrev|unfoldable|pattern) )*([^\s:(){}]+)(?: \{[^}]*\})? :", re.M)
TYPE = re.compile(r"^pub (?:data|record) (\S+)", re.M)


class Comparison:
    def __init__(self):
        self.table = {}  # old name -> new name
        self.of_specs = collections.defaultdict(set)  # new name -> the names of specs/ that became it
        self.wrong = 0
        self.files = 0

    def say(self, *words):
        self.wrong += 1
        print(*words)

    def file(self, path, before, after):
        if not TURNED.match(path):
            self.say("changed, and should not", path)
        self.files += 1
        if before.count("\n") != after.count("\n"):
            self.say("lines", path)
        old, new = TOKEN.split(before), TOKEN.split(after)
        if len(old) != len(new):
            self.say("tokens", path)
            return
        for u, v in zip(old, new):
            if u != v and not re.match(r"[^\W\d]", u.lstrip("+*(|-'μ")):
                self.say("no name", path, u, v)
        if not path.endswith(".md"):
            self.code(path, without_comments(path, before), without_comments(path, after))

    def code(self, path, before, after):
        old, new = TOKEN.split(before), TOKEN.split(after)
        if len(old) != len(new):
            self.say("code tokens", path)
            return
        there, back = collections.defaultdict(set), collections.defaultdict(set)
        for i, (u, v) in enumerate(zip(old, new)):
            if u != v and self.table.setdefault(u, v) != v:
                self.say("two new names", path, u, self.table[u], v)
            there[u].add(v)
            # A field that Rattle makes stands behind a dot, and keeps its name.
            if u != v or not (i > 1 and old[i - 1] == "." and old[i - 2]):
                back[v].add(u)
        for u, names in there.items():
            if len(names) > 1:
                print("note: turned in one place, kept in another:", path, u, sorted(names))
        for v, names in back.items():
            if len(names) > 1 and not (path.endswith(".rt") and is_rust_name(v, before)):
                self.say("fell together", path, v, sorted(names))
        if path.endswith(".rt"):
            if GHOST.sub("", before) != GHOST.sub("", after):
                self.say("Rust code", path)
            if STRING.findall(before) != STRING.findall(after):
                self.say("strings", path)
        if "/specs/" in path:
            for name in DECLARED.findall(before) + TYPE.findall(before):
                self.of_specs[self.table.get(name, name)].add(name)


def without_comments(path, text):
    return re.sub(r"--[^\n]*" if path.endswith(".antt") else r"//[^\n]*", "", text)


def is_rust_name(name, text):
    """A function of the code, or an import of one, may have the name that a definition gets."""
    return re.search(r"\b(fn|use [\w:{, ]*)\s*" + re.escape(name) + r"\b", text)


def bytes_of(path):
    with open(path, "rb") as file:
        return file.read()


def main():
    before, after = sys.argv[1:]
    found = Comparison()
    for folder, below, names in os.walk(before):
        below[:] = [name for name in below if name not in (".git", "out", "target")]
        for name in names:
            path = os.path.relpath(os.path.join(folder, name), before)
            old, new = bytes_of(os.path.join(before, path)), bytes_of(os.path.join(after, path))
            if old != new:
                found.file(path, old.decode(), new.decode())
    for name, names in found.of_specs.items():
        if len(names) > 1:
            found.say("specs fell together", name, names)
    counts = f"{found.files} files differ; {len(found.table)} names turned in code; {found.wrong} wrong"
    print(f"{counts}; {len(found.of_specs)} top names of changed specs")
    sys.exit(found.wrong > 0)


if __name__ == "__main__":
    main()
