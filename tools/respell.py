#!/usr/bin/env python3
"""Spells the repository's own definitions and lemmas as today's Rattle does: words in snake case, and a dash only behind the name of a definition.

usage: tools/respell.py [--list]      at the top of the repository, once, right after the kit's port.py and before any edit by hand

It reads which names the files of specs/ and proofs/ declare, and writes each of them anew wherever it stands below crates/: in definitions, contracts, proofs, comments
and must-fail edits, but in no quoted text and in no name of src/. --list prints the renamings and changes nothing. A lemma that would fall together with a
definition gets _lem.
"""
import glob
import re
import sys

WORD = r"[^\s(){}\[\].,;:@\"«»`\\⌜⌝λ∷|]+"
TOKEN = re.compile(r"\"(?:[^\"\\]|\\.)*\"|(?<![\w'])b'(?:[^'\\]|\\.)*'|" + WORD)
DECLARED = re.compile(r"^\s*(?:abbrev\s+|unfoldable\s+)?(?:pub\s+)?(" + WORD + r")\s*(?:\([^)]*\)\s*|\{[^}]*\}\s*)*:\s")
IMPORT = re.compile(r"^\s*(?:pub\s+|ghost\s+)?use\s+([^\s{}]+)\.\{([^}]*)\}")
CAMEL = re.compile(r"[a-z][a-z0-9]*[A-Z][A-Za-z0-9]*")
DASHED = re.compile(r"[a-z][A-Za-z0-9_]*(?:-[A-Za-z0-9_≤<≡]+)+['₀-₉]*")


def read(path):
    with open(path, encoding="utf-8") as file:
        return file.read()


def listed(*patterns):
    return sorted(f for p in patterns for f in glob.glob(p, recursive=True))


def snake(name):
    return re.sub(r"(?<=[a-z0-9])([A-Z])", lambda m: "_" + m[1].lower(), name)


def parted(line, mark):
    """A line's code and its comment."""
    at = 0
    while True:
        at = line.find(mark, at)
        if at < 0:
            return line, ""
        if line[:at].count('"') % 2 == 0 and (at == 0 or line[at - 1].isspace()):
            return line[:at], line[at:]
        at += 1


def lemma_files():
    return listed("crates/*/specs/*.antt", "crates/*/proofs/*.antt")


def library():
    """The names that files import from the kit's libraries: they keep their spelling."""
    crates = "|".join(p.split("/")[1] for p in glob.glob("crates/*/src"))
    names = set()
    for path in listed("crates/*/*/**/*.antt", "crates/*/src/**/*.rt"):
        for line in read(path).splitlines():
            found = IMPORT.match(line)
            if found and not re.match(rf"Rattle\.(?:{crates})\.", found[1]):
                names |= {n.split(" as ")[0].strip() for n in found[2].split(",")}
    return names


def renamings():
    known = library()
    declared, words = set(), set()
    for path in lemma_files():
        for line in read(path).splitlines():
            code = parted(line, "--")[0]
            found = DECLARED.match(code)
            if found:
                declared.add(found[1])
            words |= {t for t in TOKEN.findall(code) if t[0] != '"'}
    for path in listed("crates/*/src/**/*.rt"):
        for line in read(path).splitlines():
            words |= {t for t in TOKEN.findall(parted(line, "//")[0]) if t[0] != '"' and CAMEL.fullmatch(t)}
    # Texts that go over several lines are not told from code; in ours only the unit kW looks like a name.
    new = {n: snake(n) for n in words - {"kW"} if CAMEL.fullmatch(n) and n not in known}
    definitions = set(new.values()) | {n for n in declared if re.fullmatch(r"[a-z][a-z0-9_]*", n)}
    heads = set(new.values()) | {n for n in known if re.fullmatch(r"[a-z][a-z0-9_]*", n)}
    for name in sorted(w for w in words if DASHED.fullmatch(w) and w not in known):
        head, *rest = [snake(part) for part in name.split("-")]
        target = head + ("-" if head in heads else "_") + "_".join(rest)
        if target in definitions:
            # A lemma; a bound variable keeps its dash.
            target = target + "_lem" if name in declared else name
        new[name] = target
    return {a: b for a, b in new.items() if a != b}


def respelled(line, mark, new):
    code, comment = parted(line, mark)
    swap = lambda m: new.get(m[0], m[0])
    code = TOKEN.sub(swap, code)
    if mark == "#" and comment:
        comment = re.sub(r"(refused at [^:]*: )(\S+)", lambda m: m[1] + new.get(m[2], m[2]), comment)
    comment = re.sub(r"`[^`]*`", lambda m: TOKEN.sub(swap, m[0]), comment)
    return code + re.sub(r"\b" + CAMEL.pattern + r"\b", lambda m: new.get(m[0], m[0]), comment)


def main():
    new = renamings()
    if "--list" in sys.argv:
        for old in sorted(new):
            print(old, new[old])
        return
    for mark, paths in (("--", listed("crates/*/specs/**/*.antt", "crates/*/proofs/**/*.antt")), ("//", listed("crates/*/src/**/*.rt")), ("#", listed("crates/*/must-fail/*.edit"))):
        for path in paths:
            text = read(path)
            after = "\n".join(respelled(line, mark, new) for line in text.split("\n"))
            if after != text:
                with open(path, "w", encoding="utf-8") as file:
                    file.write(after)


if __name__ == "__main__":
    main()
