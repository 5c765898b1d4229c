#!/usr/bin/env python3
"""Brings this repository's own definitions and lemmas to the toolchain's spelling of names; it was run once, right behind the toolchain's port.py.

usage: tools/spell_names.py [--table]        at the top of the repository; --table prints old and new names, and writes nothing

Types are in upper camel case (Split-fits: SplitFits), all else in snake case (pair-count: pair_count, Join-outcome: join_outcome). A dash stays where
it joins two names of definitions (length-joined); a plain word hangs on by an underscore (xor_assoc). Names from .rt sources and of the library stay,
and so does what the check itself makes. It stops before it writes where two names of one file would fall together.
"""
import collections
import os
import re
import sys

WORD = re.compile(r"[^\s(){}.;,@\"«»`]+")
NAME = r"[^\s(){}.;,@\"«»:]+"
MARKS = r"^\s*(?:(?:pub|unfoldable|abbrev|pattern)\s+)*"
RULES = re.compile(MARKS + r"ruleset\s+(" + NAME + ")")
TYPE = re.compile(MARKS + r"(?:data|record)\s+(" + NAME + ")")
DECLARED = re.compile(r"^(\s*)(?:(?:pub|unfoldable|abbrev|pattern)\s+)*(" + NAME + r")((?:\s+[({].*?[)}])*)\s*:(?:\s(.*))?$")
BINDER = re.compile(r"[({]((?:" + NAME + r"\s+)+):\s")
# commands of the command line that are also names of definitions: in pages and comments they stay
COMMANDS = {"cube-sheet", "inverse-box"}
QUOTED = re.compile(r'"(?:[^"\\\n]|\\.)*"')
# words of the library that lemmas are named by
WORDS = set("length take drop map append set get_or replicate reverse zip cons mem all any sum".split())


def paths(*ends):
    for folder, below, names in os.walk("crates"):
        below[:] = sorted(d for d in below if d != "out")
        yield from (os.path.join(folder, n) for n in sorted(names) if n.endswith(ends))


def shared(path):
    """A file of definitions or laws, and not the proof of one function."""
    parts = path.split(os.sep)
    return parts[2] == "specs" or (parts[2] == "proofs" and len(parts) == 4)


def read(path):
    with open(path, encoding="utf-8") as f:
        return f.read()


def declared(path):
    """Each name that a file declares, with whether it is a type."""
    lines = read(path).split("\n")
    for i, line in enumerate(lines):
        if line.lstrip().startswith("--"):
            continue
        found = TYPE.match(line)
        if found:
            yield found.group(1), True
            continue
        found = DECLARED.match(line)
        if not found or found.group(2) in ("let", "use", "module"):
            continue
        depth, is_of, k = len(found.group(1)), found.group(4) or "", i + 1
        while k < len(lines) and lines[k].strip() and len(lines[k]) - len(lines[k].lstrip()) > depth:
            is_of += " " + lines[k].strip()
            k += 1
        yield found.group(2), bool(re.search(r"(^|→\s*)Type(\s+\S+)?\s*$", is_of))


def binders():
    """The names of arguments and of rulesets."""
    names = set()
    for path in filter(shared, paths(".antt")):
        for line in read(path).split("\n"):
            if not line.lstrip().startswith("--"):
                names.update(w for group in BINDER.findall(line) for w in group.split())
                names.update(RULES.findall(line))
    return names


def fields():
    """The fields of records: they also stand behind a dot."""
    names = set()
    for path in filter(shared, paths(".antt")):
        depth = None
        for line in read(path).split("\n"):
            inside = len(line) - len(line.lstrip())
            if depth is not None and line.strip() and inside <= depth:
                depth = None
            if re.match(MARKS + "record\\s", line):
                depth = inside
            elif depth is not None and not line.lstrip().startswith("--"):
                found = DECLARED.match(line)
                if found:
                    names.add(found.group(2))
    return names


def snake(name):
    return name[:1].lower() + name[1:].replace("-", "_")


def camel(name):
    return "".join(part[:1].upper() + part[1:] for part in name.split("-"))


def joined(name, words):
    """A lemma's name: as few names and plain words as it can be read as, the longest first; a dash between two names, else an underscore."""
    parts = name.replace("-", " ").split(" ")
    read_as, i = [], 0
    while i < len(parts):
        for k in range(len(parts), i, -1):
            word = "_".join(parts[i:k])
            if word in words or k == i + 1:
                read_as.append((word, word in words))
                i = k
                break
    text = read_as[0][0]
    for (_, left), (word, right) in zip(read_as, read_as[1:]):
        text += ("-" if left and right else "_") + word
    return text


def library():
    """The names that files bring in from elsewhere."""
    own = set(os.listdir("crates"))
    names = set()
    for path in paths(".antt", ".rt"):
        for head, inner in re.findall(r"\buse\s+([^\s{};]+)\.\{([^}]*)\}", read(path)):
            parts = head.split(".")
            if parts[0] == "Rattle" and len(parts) > 1 and parts[1] in own:
                continue
            names.update(w for item in inner.split(",") for w in item.split() if w != "as")
    return names


def table():
    types, words, lemmas = set(), set(), set()
    for path in filter(shared, paths(".antt")):
        for name, is_type in declared(path):
            (types if is_type else words if os.sep + "specs" + os.sep in path else lemmas).add(name)
    foreign = library()
    new = {n: camel(n) for n in types if "-" in n and n[:1].isupper()}
    new.update({n: snake(n) for n in words if ("-" in n or n[:1].isupper()) and n not in new})
    new.update({n: snake(n) for n in fields() | binders() if "-" in n and n not in new})
    taken = set(new.values()) | {w for w in words if "-" not in w}
    for n in lemmas | types:
        if "-" in n and n not in new:
            m = joined(snake(n) if n[:1].isupper() else n, WORDS | taken)
            new[n] = m + "_lem" if m in taken else m
    return {n: m for n, m in new.items() if n not in foreign and n != m}


def turned(text, new, own, page):
    """The text with each whole word of the table respelled; behind a dot only a field of ours, or where the part before may be a module. Strings
    of code stay."""
    strings = [] if page else [m.span() for m in QUOTED.finditer(text)]

    def one(found):
        word, at = found.group(0), found.start()
        if word not in new or any(a < at < b for a, b in strings):
            return word
        if word in COMMANDS and (page or "//" in text[text.rfind("\n", 0, at) + 1 : at]):
            return word
        if at and text[at - 1] == "." and word not in own:
            before = WORD.search(text[max(0, text.rfind(" ", 0, at - 1), text.rfind("(", 0, at - 1), text.rfind("\n", 0, at - 1)) :])
            if not before or not before.group(0)[:1].isupper():
                return word
        return new[word]

    return WORD.sub(one, text)


def falls_together(path, text, new, known):
    """Names of definitions and lemmas that stand in one file and would get one spelling. Modules and functions of sources have names of their own."""
    words = set(WORD.findall(text)) & known
    back = collections.defaultdict(set)
    for w in words:
        back[new.get(w, w)].add(w)
    return [f"{path}: {', '.join(sorted(olds))} -> {w}" for w, olds in back.items() if len(olds) > 1]


def main():
    new = table()
    if "--table" in sys.argv[1:]:
        for n in sorted(new):
            print(n, new[n])
        return 0
    pages = [os.path.join(d, f) for d, _, fs in os.walk("docs") for f in fs if f.endswith(".md")] + ["README.md"]
    texts = {p: read(p) for p in [*paths(".antt", ".rt", ".edit"), *pages]}
    known = set(new) | library() | {n for p in filter(shared, paths(".antt")) for n, _ in declared(p)}
    clashes = [c for p, t in texts.items() if p.endswith((".antt", ".rt")) for c in falls_together(p, t, new, known)]
    if clashes:
        print("\n".join(clashes))
        return 1
    own = fields()
    for p, t in texts.items():
        to = turned(t, new, own, p.endswith(".md"))
        if to != t:
            with open(p, "w", encoding="utf-8") as f:
                f.write(to)
    return 0


if __name__ == "__main__":
    raise SystemExit(main())
