#!/usr/bin/env python3
"""Why each must-fail edit is refused: all that the check says, not the one line that `rt ci` prints.

    edit_errors.py FOLDER CRATE/EDIT..      or CRATE, for all of its edits

Run it at the top of the repository, over crates that `rt check` has proved (it begins with what that kept). It writes
what the check says of each edit into FOLDER, and prints a line for each, with the first fact that falls:
  OK        a fact falls, and no name is missing
  MIX       a fact falls, and a name is missing too
  ONLYNAME  only names are missing, and what depends on them: it shows nothing; give it a form that keeps the names
  PROVED    it is not refused
  BAD       it can't be applied, or what it makes does not compile
It calls rt's own functions to apply and check an edit.
"""
import glob
import importlib.machinery
import importlib.util
import os
import re
import shutil
import sys
import time

NAME = re.compile(r"has no field|is not in scope|has no `|exports no")
# The source of the edit itself does not compile.
SOURCE = re.compile(r"src/\w+\.rt:\d+:\d+: error\[")
DEPENDS = re.compile(r"declarations? that depends? on")


def loaded_rt():
    sys.dont_write_bytecode = True
    loader = importlib.machinery.SourceFileLoader("rt", os.path.realpath(shutil.which("rt")))
    rt = importlib.util.module_from_spec(importlib.util.spec_from_loader("rt", loader))
    loader.exec_module(rt)
    rt.rtlib.guarded()
    return rt


def edits_of(word):
    """What an argument names: an edit, or all edits of a crate."""
    if "/" in word:
        return [word.removesuffix(".edit")]
    return sorted(f"{word}/{os.path.basename(path)[:-5]}" for path in glob.glob(f"crates/{word}/must-fail/*.edit"))


def said_of(rt, crate, edit, folder):
    """The line about an edit."""
    texts, why = rt.read_edit(f"{crate.folder}/must-fail/{edit}.edit", crate.folder)
    if why:
        return f"BAD {crate.name}/{edit} {why}"
    began = time.time()
    kept = f"{crate.folder}/out/incremental"
    run = rt.checked(crate, texts, ["--jobs", "1"], kept if os.path.isdir(kept) else None)
    with open(f"{folder}/{crate.name}--{edit}.txt", "w", encoding="utf-8") as out:
        out.write(f"status {run.returncode}\n{run.stdout}")
    lines = run.stdout.split("\n")
    errors = [line for line in lines if ": error" in line or "error[" in line or line.startswith("note: src")]
    names = [line for line in errors if NAME.search(line)]
    facts = [line for line in errors if line not in names and not DEPENDS.search(line)]
    if broken := [line for line in errors if SOURCE.search(line)]:
        return f"BAD {crate.name}/{edit} {broken[0][:300]}"
    kind = "PROVED" if run.returncode == 0 else "ONLYNAME" if not facts else "MIX" if names else "OK"
    counts = f"{len(names)} names, {len(facts)} facts, {time.time() - began:.0f} s"
    return f"{kind} {crate.name}/{edit} {counts} | {(facts or names or ['?'])[0][:300]}"


def main():
    folder = sys.argv[1]
    os.makedirs(folder, exist_ok=True)
    rt = loaded_rt()
    crates = {crate.name: crate for crate in rt.rtlib.crates_below(os.getcwd())}
    for word in sys.argv[2:]:
        for one in edits_of(word):
            name, edit = one.split("/")
            print(said_of(rt, crates[name], edit, folder), flush=True)


if __name__ == "__main__":
    main()
