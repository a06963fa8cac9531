"""Each theorem of theorems.txt stands in its file with that statement and a proof, README names it, and a wrong definition is refused by it.

The check of a crate proves every file that its Lib.antt declares, but would not miss a theorem that is gone: no contract cites these. A name in a
statement is imported as it is called, from definitions and not from a file of proofs, so that it means what a reader of specs/ takes it for.
"""
import glob
import os
import re

from refused import edits, wrong_programs
from source import ANTT, declared, enter, finish, read, without_comments

LINE = re.compile(r"^(\w+) (proofs/\S+\.antt) (\S+) : (.+)$")
DECLARES = re.compile(r"^(?:(?:unfoldable|abbrev|opaque|axiom|pub|record|data) )*(\S+)")
USE = re.compile(r"^(?:(?:pub|unfoldable) )*use (\S+?)(?:\.\{(.*)\}|(?: as (\S+))?)$")
BUILT_IN = {"λ", "∀", "Type"}
PARAGRAPH = "The theorems about the definitions alone are"


def listed():
    """The lines of theorems.txt, taken apart: crate, file, name, statement."""
    lines = [line for line in read(".ci/theorems.txt").splitlines() if line.strip() and not line.startswith("#")]
    return [LINE.match(line).groups() if LINE.match(line) else ("", "", line, "") for line in lines]


def parts(path):
    """The parts of a file of antt, each from a line that starts at its left end on, with single blanks."""
    return [" ".join(part.split()) for part in re.split(r"^(?=\S)", without_comments(read(path)), flags=re.M) if part.strip()]


def words(text):
    return [found.group() for found in ANTT.finditer(text) if found.group("name")]


class File:
    """A file of antt: what each of its names says, and where it has other names from."""

    def __init__(self, path):
        self.says, self.imports, self.whole, name = {}, {}, {}, ""
        for part in parts(path):
            use = USE.match(part)
            if use and use.group(2) is not None:
                for item in use.group(2).split(","):
                    first, _, own = item.strip().removeprefix("syntax ").partition(" as ")
                    self.imports[own or first] = (use.group(1), first)
            elif use:
                self.whole[use.group(3) or use.group(1)] = use.group(1)
            elif not re.match(r"infix|(?:(?:pub|unfoldable) )*(?:mod|use) ", part):
                name = name if part.startswith("unfolding") else DECLARES.match(part).group(1)
                self.says.setdefault(name, []).append(part)

    def cited(self, name):
        """The names that a declaration cites: the module ("" for this file) and the name there."""
        for word in {word for part in self.says.get(name, []) for word in words(part)}:
            yield "", word
            if word in self.imports:
                yield self.imports[word]
            yield from ((module, word) for module in self.whole.values())


def faults_of_names(file, statement):
    """The names of a statement that are not bound in it, and not imported under their own names from files of definitions or from the kit."""
    plain = re.sub(r"\.[^\s(){}.;,@\"«»]+", "", statement)  # without the fields of records
    bound = {word for names in re.findall(r"[({]([^(){}:]+) :|λ ([^.]+)\.", plain) for word in " ".join(names).split()}
    operators = {part: name for name in file.imports for part in name.split("◌") if part}
    faults = []
    for word in sorted(set(words(plain)) - bound - BUILT_IN):
        module, first = file.imports.get(operators.get(word), ("", ""))
        if word in file.says:
            faults.append(f"{word} of its statement is declared beside it")
        elif module and (first != operators[word] or re.search(r"\bproofs\b", module)):
            faults.append(f"{word} of its statement is {first} of {module}, and not a definition under its own name")
        elif not module and word[0].isalpha():
            faults.append(f"{word} of its statement is neither bound nor imported by its name")
    return faults


def faults_of_statement(file, name, statement):
    """What is wrong with a theorem in its file."""
    says = file.says.get(name, [])
    signatures = [part for part in says if re.match(rf"(?:\w+ )*{re.escape(name)} : ", part)]
    if len(signatures) != 1:
        return ["it is not declared there, once"]
    if signatures[0] != f"pub {name} : {statement}":
        return [f"it is declared as another one: {signatures[0]}"]
    proofs = [part for part in says if re.match(rf"{re.escape(name)} (?:.* )?=", part)]
    if not proofs or any(word.startswith("?") for part in proofs for word in words(part)) or any("{!" in part for part in proofs):
        return ["it has no proof, or one with a hole"]
    return faults_of_names(file, statement)


def supports(crate, file, name):
    """A theorem and the laws of its crate that its proof cites, and theirs: places and facts, as edits name them."""
    folder = f"crates/{crate}/proofs/"
    files = {path[len(folder) : -len(".antt")]: File(path) for path in glob.glob(f"{folder}**/*.antt", recursive=True)}
    prefix, found, left = f"Rattle.{crate}.proofs.", set(), [(file, name)]
    while left:
        one = left.pop()
        if one not in found and one[0] in files and one[1] in files[one[0]].says:
            found.add(one)
            for module, word in files[one[0]].cited(one[1]):
                left.append((module.removeprefix(prefix).replace(".", "/") if module else one[0], word))
    return {(place.replace("/", "::"), fact) for place, fact in found}


def is_public(crate, file):
    """Whether Lib.antt and the files on the way declare a file of proofs, as public."""
    folder, above = f"crates/{crate}/proofs", "Lib"
    for part in file.split("/"):
        path = f"{folder}/{above}.antt"
        if not os.path.exists(path) or (part, True) not in declared(path):
            return False
        folder, above = (folder if above == "Lib" else f"{folder}/{above}"), part
    return True


def faults_of(crate, path, name, statement):
    """What is wrong with a line of theorems.txt."""
    where, file = f"crates/{crate}/{path}", path.removeprefix("proofs/").removesuffix(".antt")
    if not statement:
        return [f".ci/theorems.txt: not CRATE FILE NAME : STATEMENT: {name}"]
    if not os.path.exists(where):
        return [f"{where}: {name}: there is no such file"]
    faults = faults_of_statement(File(where), name, statement)
    if not is_public(crate, file):
        faults.append("Lib.antt does not declare its file, by `pub mod`")
    refused = {(place, fact) for edit in edits(crate) for _, place, fact, _ in wrong_programs(edit)[0]}
    if not faults and not refused & supports(crate, file, name):
        faults.append("no wrong definition is refused by it or by a law that it rests on")
    return [f"{where}: {name}: {fault}" for fault in faults]


def faults_of_readme(theorems):
    """Where README's sentence on the theorems and the list differ."""
    text = read("README.md")
    if text.count(PARAGRAPH) != 1:
        return [f"README.md: no sentence, or more than one, that starts: {PARAGRAPH}"]
    sentence = re.match(r"(?:`[^`]*`|[^`.])*", text[text.index(PARAGRAPH) :]).group()
    spans = [" ".join(span.split()) for span in re.findall(r"`([^`]*)`", sentence)]
    names = [{name, f"{name} : {statement}"} for _, _, name, statement in theorems]
    others = [span for span in spans if "/" not in span and span not in set().union(*names)]
    faults = [f"README.md names {span}, which .ci/theorems.txt does not list" for span in others]
    for (crate, path, name, _), either in zip(theorems, names):
        if not either & set(spans):
            faults.append(f"README.md does not name the theorem {name}")
        if not {f"crates/{crate}/{path}", f"crates/{crate}/{os.path.dirname(path)}"} & set(spans):
            faults.append(f"README.md does not name crates/{crate}/{path}, where {name} stands")
    return faults


def main():
    enter()
    theorems = listed()
    faults = [fault for theorem in theorems for fault in faults_of(*theorem)] + faults_of_readme(theorems)
    faults += [] if theorems else [".ci/theorems.txt lists no theorem"]
    finish(faults, f"{len(theorems)} theorems as listed")


if __name__ == "__main__":
    main()
