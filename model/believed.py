"""What a reader must believe: the definitions that the entry points' contracts and the promised theorems rest on, followed word by word.

    python3 model/believed.py            a line for each file: how many lines of it, and which definitions; then the sum
    python3 model/believed.py --check    whether docs/ARCHITECTURE.md tells that sum

A line counts if it belongs to such a definition: no comment, no import, no empty line.
"""
import glob
import os
import re
import sys

import needs
from needs import ROOT

# The files of code whose public functions are the entry points.
ENTRIES = ["engine/src/lib.rt", "engine/src/preview.rt", "joining/src/lib.rt", "deck/src/lib.rt", "solve/src/lib.rt", "koralimbu/src/lib.rt",
           "koralimbu/src/joins.rt", "koralimbu/src/previewing.rt", "koralimbu/src/reading.rt", "koralimbu/src/version.rt"]

# The files of statements that docs/PROMISES.md cites, and in files of more than statements these.
STATEMENTS = {
    "engine/specs/Demand.antt": ["Demand3"],
    "engine/specs/Ceiling.antt": ["RoundsRefused", "RoundsReturned", "RoundsCeiling"],
    "engine/specs/Handed.antt": ["IdealsUsed", "IdealsUnread"],
    "engine/specs/OneGoal.antt": ["OneGoalKept"],
    "engine/specs/Outcomes.antt": ["KeepsRows", "VerdictMeans", "NoneExactlyWhen"],
    "engine/specs/Stride.antt": ["AssignStrides", "ContinueStrides"],
    "engine/specs/Preview.antt": ["PreviewContinue", "PreviewRoom", "PreviewStep", "PreviewRest", "PreviewLimit"],
    "joining/specs/Shares.antt": ["PartCauses", "JoinShares", "JoinFits", "JoinCounts", "JoinWithin", "JoinMeets", "JoinAlone", "JoinBehind",
                                  "JoinColumns"],
    "goals/specs/Ideals.antt": ["RootIs", "RootAlone"],
    "goals/specs/OneGoal.antt": ["IdealKept", "FitKept"],
    "whole/specs/Divisor.antt": ["DivisorGreatest"],
    "settling/specs/Strides.antt": ["StrideGreatest"],
    "neighbours/specs/Rule.antt": ["ReadersRule"],
    "neighbours/specs/OneGoal.antt": ["OneGoalWishes"],
    "sections/specs/Sections.antt": ["PairRule"],
    "deck/specs/Posing.antt": ["TextGoalsFit"],
    "deck/specs/Older.antt": ["OneGoalTexts", "OlderTexts"],
    "solve/specs/Cases.antt": ["DeckCases"],
    "solve/specs/GoalCases.antt": ["GoalCases"],
    "solve/specs/RoundCases.antt": ["RoundCases"],
    "solve/specs/Program.antt": ["ListedWhole"],
    "solve/specs/Swept.antt": ["VolumesSatisfied"],
    "runs/specs/CallRuns.antt": ["NoListTwice", "assign_run", "continue_run"],
    "tableau/specs/Theorems.antt": None,
    "tableau/specs/RoundedDown.antt": ["FormUnchanged", "FoundUnchanged", "SolveUnchanged"],
}

SPLIT = re.compile(r"[\s(){};,«»⌜⌝]+")


def words(text):
    """The words of a text, and the parts of dotted ones."""
    found = set(SPLIT.split(re.sub(r"--.*", "", text)))
    return found | {part for word in found for part in word.split(".")}


def imports(lines):
    """Name in this file -> (module, name there); and names of whole modules."""
    names, modules = {}, {}
    for line in lines:
        m = re.match(r"\s*(?:ghost )?use ([^\s{;]+?)(?:\.\{(.*)\})?(?: as (\S+?))?;?$", line)
        if not m:
            continue
        if m.group(2) is None:
            modules[m.group(3) or m.group(1).split(".")[-1]] = m.group(1)
            continue
        for item in filter(None, (x.strip() for x in m.group(2).split(","))):
            there, _, here = item.partition(" as ")
            names[here or there] = (m.group(1), there)
    return names, modules


def file_of(module):
    """The file of specs/ that a module is."""
    m = re.match(r"Rattle\.(\w+)\.specs\.([\w.]+)$", module)
    return f"{m.group(1)}/specs/{m.group(2).replace('.', '/')}.antt" if m else None


def unindented(lines):
    """The lines, with those of a module that has parameters moved to the left."""
    inside = False
    for line in lines:
        if line.strip() and not line.startswith(" "):
            inside = line.startswith("module ")
        if not line.startswith("module "):
            yield line[2:] if inside else line


def declarations(lines):
    """Name -> the lines of its declaration. Each begins at the left, after an empty line or a comment."""
    found, name = {}, None
    for line in unindented(lines):
        if not line.strip() or line.startswith("--"):
            name = name if line.strip() == "" else None
            continue
        if line.startswith("use "):
            continue
        if not line.startswith(" "):
            m = re.match(r"(?:abbrev |unfoldable )?(?:pub )?(?:(?:record|data) (\S+)|(\S+) :(?: |$))", line)
            if m:
                name = m.group(1) or m.group(2)
                found[name] = []
        if name and not line.strip().startswith("--"):
            found[name].append(line)
    return found


def read():
    files = {}
    for path in glob.glob(f"{ROOT}/crates/*/specs/**/*.antt", recursive=True):
        lines = open(path, encoding="utf-8").read().split("\n")
        files[os.path.relpath(path, f"{ROOT}/crates")] = (declarations(lines), *imports(lines))
    return files


def cited(text, here, names, modules, files):
    """The declarations of specs/ that a text names."""
    found = set()
    for word in words(text):
        if word in names:
            path, name = file_of(names[word][0]), names[word][1]
        elif here in files and word in files[here][0]:
            path, name = here, word
        else:
            continue
        if path in files and name in files[path][0]:
            found.add((path, name))
    for alias, module in modules.items():
        path = file_of(module)
        for name in re.findall(rf"(?<!\S){re.escape(alias)}\.([^\s(){{}};,]+)", text):
            if path in files and name in files[path][0]:
                found.add((path, name))
    return found


def contracts(path):
    """The text of the contracts of the public functions of a file of code."""
    text = open(f"{ROOT}/crates/{path}", encoding="utf-8").read()
    return "\n".join(re.findall(r"(?m)^pub (?:extern \"C\" )?fn [\s\S]*?\n\{", text)), *imports(text.split("\n"))


def believed():
    files = read()
    todo = set()
    for path in ENTRIES:
        text, names, modules = contracts(path)
        todo |= cited(text, path, names, modules, files)
    for path, names in STATEMENTS.items():
        if path not in files:
            sys.exit(f"crates/{path} is not there")
        for name in names if names is not None else files[path][0]:
            if name not in files[path][0]:
                sys.exit(f"crates/{path} has no {name}")
            todo.add((path, name))
    seen = set()
    while todo:
        path, name = todo.pop()
        if (path, name) in seen:
            continue
        seen.add((path, name))
        found, names, modules = files[path]
        todo |= cited("\n".join(found[name]), path, names, modules, files)
    return files, seen


def main(arguments):
    files, seen = believed()
    total = 0
    for path in sorted({path for path, _ in seen}):
        names = [name for name in files[path][0] if (path, name) in seen]
        count = sum(len(files[path][0][name]) for name in names)
        total += count
        if "--check" not in arguments:
            print(f"{count:4} {path}: {' '.join(names)}")
    if "--check" not in arguments:
        print(f"{total} lines")
        return 0
    told = re.search(r"([\d,]+) lines of definitions", open(f"{ROOT}/docs/ARCHITECTURE.md", encoding="utf-8").read())
    right = told is not None and int(told.group(1).replace(",", "")) == total
    if not right:
        print(f"docs/ARCHITECTURE.md tells {told.group(1) if told else 'nothing'}; it is {total:,}")
    print(f"{int(right)} passed, {int(not right)} failed")
    return int(not right)


if __name__ == "__main__":
    needs.tool(main)
