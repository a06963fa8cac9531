"""Every file stands where `rt` reads it, before anything is proved: the crates of crates.txt, no other, and in each the kinds of files it has.

The prover refuses a file of src/, specs/ or proofs/ that nothing declares, but only when its crate's turn comes, and a wrong program whose name
does not end in `.edit`, or starts with a dot, is never tried. No symbolic link stands anywhere: `rt` follows some and others not.
"""
import os
import re

from source import Unreadable, crates, declared, enter, finish, module_of, source

FOLDERS = ("crates", "examples", "include", "harness", "program", ".ci")
MADE = re.compile(r"\.git|target|crates/\w+/out|harness/(?:\w+/)?target|(?:\.ci|harness/use)/__pycache__")  # by tools, and no part of the repository
FILES = re.compile(r"src/(?:\w+/)*\w+\.rt|(?:specs|proofs)/(?:[\w+]+/)*\w+\.antt|must-fail/\w+\.edit")
RUN = re.compile(r"stdin|stdout|args|status|data/.+")
OF_FUNCTION = ("Invariants", "Answers", "Proof")


def walk(folder):
    """The paths of all files below a folder, and of all links, which it does not follow."""
    for above, folders, files in os.walk(folder):
        folders[:] = sorted(name for name in folders if not MADE.fullmatch(os.path.normpath(f"{above}/{name}")))
        for name in sorted(files + [name for name in folders if os.path.islink(f"{above}/{name}")]):
            yield os.path.normpath(f"{above}/{name}")


def faults_of_places():
    """Links, and files of Rattle or antt in no crate."""
    faults = [f"{path}: a symbolic link" for folder in FOLDERS for path in [folder, *walk(folder)] if os.path.islink(path)]
    outside = [path for path in walk(".") if path.endswith((".rt", ".antt")) and not re.match(r"crates/\w+/(?:src|specs|proofs)/", path)]
    return faults + [f"{path}: outside of the folders src, specs and proofs of a crate" for path in outside]


def faults_of_crates():
    """Where crates.txt and the folder of crates differ."""
    listed, there = crates(), sorted(os.listdir("crates"))
    faults = [f"crates.txt: {name} stands twice" for name in sorted(set(listed)) if listed.count(name) > 1]
    faults += [f"crates/{name}: not listed in crates.txt" for name in there if name not in listed]
    faults += [f"crates/{name}: not a folder" for name in there if os.path.islink(f"crates/{name}") or not os.path.isdir(f"crates/{name}")]
    for name in listed:
        roots = [root for root in ("lib", "main") if os.path.isfile(f"crates/{name}/src/{root}.rt")]
        faults += [f"crates/{name}: listed in crates.txt, and has not exactly one of src/lib.rt and src/main.rt"] if len(roots) != 1 else []
    return faults


def roots(functions, there):
    """The files of antt that need no `mod` line: the two Lib, those of each function or cycle of calls (+even+odd), and the modules above them."""
    found = {"specs/Lib", "proofs/Lib"}
    for path in functions:
        found |= {f"proofs/{path}/{name}" for name in OF_FUNCTION} | {f"proofs/{path[:slash.start()]}" for slash in re.finditer("/", path)}
    for module, cycle in re.findall(r"^proofs/((?:\w+/)*)((?:\+\w+)+)/\w+\.antt$", "\n".join(there), re.M):
        if all(f"{module}{name}" in functions for name in cycle[1:].split("+")):
            found |= {f"proofs/{module}{cycle}/{name}" for name in OF_FUNCTION}
    return {root for root in found if f"{root}.antt" in there}


def reached(crate, left):
    """Some files of antt and all that they lead to by `mod` lines. One named Lib declares what stands beside it."""
    found, left = set(), [*left]
    while left:
        file = left.pop()
        found.add(f"{file}.antt")
        folder = os.path.dirname(file) if os.path.basename(file) == "Lib" else file
        if os.path.isfile(f"crates/{crate}/{file}.antt"):
            left += [f"{folder}/{name}" for name, _ in declared(f"crates/{crate}/{file}.antt")]
    return found


def faults_of_modules(crate, there):
    """Files of a crate that nothing declares, and declared ones that are not there."""
    code, files = source(crate), {file for file in there if file.endswith(".antt")}
    known = reached(crate, roots({function.path.replace("::", "/") for function in code.functions}, there))
    faults = [f"{file}: no `mod` line and no function leads to it, so nothing would prove it" for file in sorted(files - known)]
    faults += [f"{file}: declared, and not there" for file in sorted(known - files)]
    modules = {"::".join(module_of(file)) for file in there if file.endswith(".rt")} - {""}
    faults += [f"src: no `mod` item names the file of {name}" for name in sorted(modules - set(code.modules))]
    return faults + [f"src: no file of the module {name}" for name in sorted(set(code.modules) - modules)]


def faults_of(crate):
    """What is wrong with the files of a crate."""
    there = [path[len(f"crates/{crate}/") :] for path in walk(f"crates/{crate}")]
    program = "src/main.rt" in there
    strays = [file for file in there if not FILES.fullmatch(file) and not (program and RUN.fullmatch(file))]
    faults = [f"{file}: a stray file, which rt does not read" for file in strays]
    try:
        faults += faults_of_modules(crate, [file for file in there if file not in strays])
    except Unreadable as error:
        faults.append(f"{error}")
    return [fault if fault.startswith("crates/") else f"crates/{crate}/{fault}" for fault in faults]


def main():
    enter()
    faults = faults_of_places() + faults_of_crates()
    real = [name for name in crates() if os.path.isdir(f"crates/{name}") and not os.path.islink(f"crates/{name}")]
    faults += [fault for name in real for fault in faults_of(name)]
    finish(faults, f"{len(real)} crates, and every file in its place")


if __name__ == "__main__":
    main()
