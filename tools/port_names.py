"""Brings the repository's own names to today's spelling: words in snake case, types and modules in camel case.

    python3 tools/port_names.py [--names]

Runs once, at the top, right after the toolchain's own port script. What it renames are the names that files of specs/ and proofs/ declare:
definitions, lemmas, constructors, fields, and what is bound inside them. `floorQuotient` and `floor-quotient` become `floor_quotient`; a name
that begins with a capital keeps it and loses its dashes. Functions of src/, exported names, strings, inputs and outputs keep theirs, as do the
names of the toolchain's library and those that the checker makes (`tie.Need-…`, `loop-test`, `After-…`).
With --names it writes nothing and prints each old name with its new one.
"""
import os
import re
import sys

ROOT = os.path.dirname(os.path.dirname(os.path.abspath(__file__)))
CRATES = os.path.join(ROOT, "crates")
STOP = "\\s(){}\\[\\];,.\"`«»"
SEGMENT = re.compile(f"[^{STOP}]+")
# What the checker makes, whose fields a file of ours may also bind by name.
MADE = re.compile(r"^(Need|After|In|At|Then|Else|Lts|InvT|MeasureT|Case|Arm)\d*(-|$)")
KEPT = {"loop-test", "well_formed"}
# A law or a helper that would have the name of a definition which its file uses.
LOCAL = {
    "koralimbu/proofs/previewing/tell_step/Proof.antt": {"step-of": "step_before"},
    "settling/proofs/Verdicts.antt": {"in_bounds": "in_bounds_lem"},
}
PAGES = ["README.md", "decks/README.md"] + sorted("docs/" + name for name in os.listdir(os.path.join(ROOT, "docs")) if name.endswith(".md"))


def snake(name):
    """A name in today's spelling."""
    def part(word):
        if re.match(r"[^\W\d_]*[A-Z]", word[:1]) or not re.search("[A-Z]", word):
            return word
        return re.sub(r"(?<=[^A-Z_])([A-Z])", r"_\1", word).lower()
    return "_".join(part(word) for word in name.replace("′", "'").split("-") if word) if not name.startswith("-") else name


def files(endings):
    for folder, below, names in os.walk(CRATES):
        below[:] = sorted(d for d in below if d != "out")
        for name in sorted(names):
            if name.endswith(endings):
                yield os.path.join(folder, name)


def read(path):
    with open(path, encoding="utf-8") as f:
        return f.read()


def plain(text):
    """A text without its comments."""
    return re.sub(r"--.*", "", text)


def declared():
    """The names that files of specs/ and proofs/ declare or bind, and those that they import from other libraries."""
    own, others = set(), set()
    for path in files(".antt"):
        text = plain(read(path))
        for m in re.finditer(r"^\s*(?:ghost )?(?:pub )?use ([^\s{]+?)(?:\.\{([^}]*)\})?(?: as (\S+))?\s*$", text, re.M):
            ours = re.match(r"Rattle\.(\w+)\.", m.group(1))
            if not (ours and os.path.isdir(os.path.join(CRATES, ours.group(1)))):
                others |= {it.split(" as ")[-1].strip() for it in (m.group(2) or "").split(",")}
        body = re.sub(r"^\s*(?:pub )?use .*$", "", text, flags=re.M)
        # signatures, fields and constructors; several fields may share one line
        for m in re.finditer(rf"(?m)^[ \t]*(?:(?:abbrev|unfoldable|pub|private) )*((?:[^{STOP}]+ )+):(?=\s|$)", body):
            own |= set(m.group(1).split())
        # bound: arguments in brackets, lambdas, lets, and the left sides of clauses
        for m in re.finditer(rf"[({{]((?:[^{STOP}]+ )+):(?=\s)", body):
            own |= set(m.group(1).split())
        for m in re.finditer(r"λ ([^.\n]*)\.", body):
            own |= set(re.split(r"[\s(){},:]+", m.group(1)))
        for m in re.finditer(rf"\blet ([^{STOP}]+)", body):
            own.add(m.group(1))
        for m in re.finditer(r"(?m)^[ \t]*([^\n=]*?)\s=(?=\s|$)", body):
            own |= set(re.split(r"[\s(){},]+", m.group(1)))
        for m in re.finditer(rf"\brecord ([^{STOP}]+)|\bdata ([^{STOP}]+)", body):
            own.add(m.group(1) or m.group(2))
    return own, others


def renaming():
    own, others = declared()
    table = {}
    for name in own:
        if "." in name or MADE.match(name) or name in KEPT or name in others:
            continue
        if re.search(r"[^\W\d_]", name) is None or name.startswith("+") and "-" not in name:
            continue
        if re.search(r"\w-|-\w|′|[a-z0-9'][A-Z]", name) and not (name[:1].isupper() and not re.search("[-′]", name)):
            new = snake(name)
            if new != name:
                table[name] = new
    # a lemma that would have its definition's name
    news = {}
    for name, new in table.items():
        news.setdefault(new, []).append(name)
    for new, names in news.items():
        if len(names) > 1:
            for name in names:
                if "-" in name:
                    table[name] = new + "_lem"
    return table


def made_before(text, at):
    """Whether what stands before a place is the alias of a module that the checker makes."""
    return re.search(r"(?:^|[\s(])(?:[\w+]+-)?(?:tie|lts|Tie|Lts|reads|Reads)\.$", text[:at][-40:]) is not None


def turned(text, table):
    def one(m):
        word = m.group()
        return word if made_before(text, m.start()) else table.get(word, word)
    return SEGMENT.sub(one, text)


def comment(line, table):
    """A comment names what it speaks of in backticks, in a glossary's first column, or in camel case."""
    def word(m):
        return table.get(m.group(), m.group())
    line = re.sub(r"`[^`\n]*`", lambda m: SEGMENT.sub(word, m.group()), line)
    line = re.sub(r"^(\s*--|//)   (\S.*?)(?=  |$)", lambda m: m.group(1) + "   " + SEGMENT.sub(word, m.group(2)), line)
    return SEGMENT.sub(lambda m: word(m) if re.search("[a-z][A-Z]", m.group()) else m.group(), line)


def split(line, mark):
    at = line.find(mark)
    return (line, "") if at < 0 else (line[:at], line[at:])


def rewrite(path, table):
    text = read(path)
    table = {**table, **LOCAL.get(os.path.relpath(path, CRATES), {})}
    mark = "--" if path.endswith(".antt") else "//"
    lines = []
    for line in text.split("\n"):
        code, said = split(line, mark)
        if path.endswith(".rt"):
            parts = re.split(r'("(?:[^"\\]|\\.)*")', code)
            code = "".join(p if p.startswith('"') else turned(p, table) for p in parts)
        else:
            code = turned(code, table)
        lines.append(code + comment(said, table))
    new = "\n".join(lines)
    if new != text:
        with open(path, "w", encoding="utf-8") as f:
            f.write(new)


def page(path, table):
    """A page names definitions and laws in backticks, definitions in camel case anywhere."""
    text = read(path)
    new = re.sub(r"`[^`\n]*`", lambda m: SEGMENT.sub(lambda w: table.get(w.group(), w.group()), m.group()), text)
    new = SEGMENT.sub(lambda m: table.get(m.group(), m.group()) if re.search("[a-z][A-Z]", m.group()) else m.group(), new)
    if new != text:
        with open(path, "w", encoding="utf-8") as f:
            f.write(new)


def fallen_together(table):
    """Names that were two in a file and would be one."""
    for path in files((".antt", ".rt")):
        text = re.sub(r"(--|//).*|(?m:^ *(pub |ghost )*use [^{\n]*)", "", read(path))
        text = re.sub(r"\bfn \w+|[\w+]+\.(?=\w)|\w+\(|c\.\w+|\.\w+", "", text) if path.endswith(".rt") else text
        seen = {}
        words = set(SEGMENT.findall(text))
        for word in words:
            seen.setdefault(table.get(word, word), set()).add(word)
        for new, olds in sorted(seen.items()):
            if len(olds) > 1:
                yield path, new, olds


def main():
    table = renaming()
    if "--names" in sys.argv[1:]:
        for old, new in sorted(table.items()):
            print(old, new)
        for path, new, olds in fallen_together(table):
            print("together:", os.path.relpath(path, CRATES), new, *sorted(olds))
        return
    for path in files((".antt", ".rt")):
        rewrite(path, table)
    for name in PAGES:
        if name != "docs/PORT.md":
            page(os.path.join(ROOT, name), table)
    print(f"{len(table)} names")


main()
