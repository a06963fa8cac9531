"""After `rt ci`: holds what the prover says of every must-fail edit to what the edit says, and counts the wrong programs of each public function.

An edit file has one wrong program or more, each under a line `# NAME, refused at PLACE: FACT`. The place is a function and the fact a goal of its
proof, or the place is a file of laws and the fact a law. In the log the proof of that fact must fail by itself. (That the fact is false, and not
only proved otherwise, no log tells: the edit's reader judges it.)

`rt ci` keeps and prints one line of what the prover said of an edit. So each edited crate is checked once more here, by `rt check` on a copy, and what the
prover said is kept in the user's cache, by a sum of all that the check read. Where an edit changes a condition, the goals that are named after it have another
name: the answers are then tried under that name.

Wrong programs share a file, and so a check, only where each changes bodies of functions and constants alone, and no two reach the same function:
a function is proved against contracts, so that none of them can be what breaks another's fact. A public function has at least two that reach it
or a function of its crate that it calls. The functions are those that the prover names.

    .ci/refused.py [FOLDER [CRATE ..]]     looks at the repository in a folder, or at some of its crates alone
"""
import contextlib
import difflib
import functools
import glob
import hashlib
import inspect
import os
import queue
import re
import shutil
import subprocess
import sys
import tempfile
import time
from concurrent.futures import ThreadPoolExecutor

from source import Unreadable, crates, enter, finish, read, source, uses

HEAD = re.compile(r"^# (\w+), refused at ([\w:]+): ([\w'-]+)$")
PARTS = ("src", "specs", "proofs")
# What is kept of a log: each error, each function, each goal that is open, and the names that a proof could cite.
TOLD = re.compile(r"(?:\./)?(?:src|specs|proofs)/\S+:\d+:\d+: error|error|fn |note: src/|note: `search` has not tried|help: `Goals` has|  the fields that can|logic=|status=")
ERROR = re.compile(r"(?:\./)?proofs/(\S+)\.antt:\d+:\d+: error: `([^`]*)`: (.*)")
OPEN = re.compile(r"note: src/\S+:\d+:\d+: .*\(`([^`]*)`\)")
FUNCTION = re.compile(r"fn (\w+)::(\S+): (.*)")
# What the prover proves beside the functions that stand in the source: closures, functions that are passed by name, and what a derive writes.
WRITTEN_FOR_IT = re.compile(r"(?:^|::)fn::|\+|[A-Za-z](?:Clone|Debug|Default|Eq|Hash|Ord|PartialEq|PartialOrd)::\w+$")
FOLLOWS = "was not admitted"
OTHER_FACTS = ("has no `", "has no field", "is not in scope")
CONDITION = r"((?:if|[Tt]hen|[Ee]lse)-)"
MEMORY = 3_000_000_000  # that a check takes at most, but for few


def edits(crate):
    return sorted(glob.glob(f"crates/{crate}/must-fail/*.edit"))


def wrong_programs(path):
    """The wrong programs of an edit file: name, place, fact and replacements (file, old text, new text); and the lines that are out of place."""
    programs, misplaced, file, old = [], [], "", ""
    for line in read(path).splitlines():
        key, _, rest = line.partition(": ")
        if HEAD.match(line):
            programs.append((*HEAD.match(line).groups(), []))
        elif "refused at" in line or (key == "old" and not programs):
            misplaced.append(f"out of place: {line}")
        elif key == "file":
            file = rest
        elif key == "old":
            old = rest
        elif line.startswith("new:") and programs:
            programs[-1][3].append((file, old, line.removeprefix("new:").removeprefix(" ")))
    return programs, misplaced


def code(crate, replacements=()):
    """The code of a crate after replacements: the body of each function, each constant, and all else."""

    def edited(name, text):
        for file, old, new in replacements:
            text = text.replace(old, new) if file == name else text
        return text

    found = source(crate, edited)
    return {one.path: one.body for one in found.functions}, {one.path: one.text for one in found.constants}, found.rest


def differ(before, after):
    return {name for name in before | after if before.get(name) != after.get(name)}


def users(constants, parts):
    """The parts that use one of some constants."""
    names = "|".join(re.escape(path.split("::")[-1]) for path in constants)
    return {name for name, text in parts.items() if constants and re.search(rf"\b(?:{names})\b", text)}


def reached(crate, replacements):
    """The functions whose bodies replacements change, or that use a constant that they change; "" where they change anything else."""
    (bodies, constants, rest), after = code(crate), code(crate, replacements)
    changed, more = set(), differ(constants, after[1])
    while more - changed:
        changed |= more
        more = users(changed, constants)
    return differ(bodies, after[0]) | users(changed, bodies) | ({""} if rest != after[2] else set())


def below(crate):
    """A crate and all that it uses."""
    found, left, used = set(), [crate], dict(uses())
    while left:
        one = left.pop()
        if one in used and one not in found:
            found.add(one)
            left += used[one]
    return sorted(found)


@functools.lru_cache(maxsize=None)
def version():
    return subprocess.run(["rt", "version"], check=True, stdout=subprocess.PIPE).stdout


@functools.lru_cache(maxsize=None)
def sum_of_text(crate):
    """A sum of all that the prover reads of a crate, and of the crates that it uses."""
    found, used = hashlib.sha256(version()), dict(uses())
    for one in below(crate):
        found.update(repr((one, used[one])).encode())
        for path in sorted(path for part in PARTS for path in glob.glob(f"crates/{one}/{part}/**/*", recursive=True) if os.path.isfile(path)):
            with open(path, "rb") as file:
                found.update(repr((path, file.read())).encode())
    return found.hexdigest()


def cache():
    return os.path.join(os.environ.get("XDG_CACHE_HOME") or os.path.expanduser("~/.cache"), "kozempil", "refused")


def place_in_cache(crate, replacements):
    how = [TOLD.pattern, ERROR.pattern, CONDITION, *map(inspect.getsource, (check, checked, renamed, conditions))]
    return os.path.join(cache(), hashlib.sha256(repr((sum_of_text(crate), replacements, how)).encode()).hexdigest())


def kept(crate, replacements):
    """What the prover said earlier of a crate with these replacements, or None."""
    with contextlib.suppress(OSError):
        path = place_in_cache(crate, replacements)
        log = read(path)
        os.utime(path)
        return log
    return None


def forget():
    """Removes what no run has used for two months."""
    for path in glob.glob(f"{glob.escape(cache())}/*"):
        with contextlib.suppress(OSError):
            if os.path.getmtime(path) < time.time() - 60 * 86400:
                os.remove(path)


def keep(crate, replacements, log):
    """Keeps a log where it can, but not of a check that told nothing."""
    with contextlib.suppress(OSError):
        if re.search(r"^logic=", log, re.M):
            os.makedirs(cache(), exist_ok=True)
            with tempfile.NamedTemporaryFile("w", dir=cache(), delete=False, encoding="utf-8") as file:
                file.write(log)
            os.replace(file.name, place_in_cache(crate, replacements))
    return log


def check(folder, *flags):
    """What the prover says of the crate in a folder."""
    done = subprocess.run(["rt", "check", *flags], cwd=folder, stdin=subprocess.DEVNULL, stdout=subprocess.PIPE, stderr=subprocess.STDOUT, check=False)
    lines = done.stdout.decode(errors="replace").splitlines()
    return "\n".join([line if line.startswith("fn ") else line[:2000] for line in lines if TOLD.match(line)] + [f"status={done.returncode}"])


def copied(folder):
    """Makes a copy of all that the prover reads of the repository."""
    for crate in crates():
        for part in PARTS:
            if os.path.isdir(f"crates/{crate}/{part}"):
                shutil.copytree(f"crates/{crate}/{part}", f"{folder}/crates/{crate}/{part}")
    for name in ("crates.txt", "HANDLES"):
        if os.path.exists(name):
            shutil.copy(name, folder)
    os.mkdir(f"{folder}/.git")  # the top of a repository
    return folder


def checked(crate, replacements, copies):
    """What the prover says of a crate after replacements, in a copy of the repository that is free."""
    copy = copies.get()
    folder = f"{copy}/crates/{crate}"
    try:
        texts = {file: read(f"{folder}/{file}") for file, _, _ in replacements}
        for file, text in edited(texts, replacements).items():
            write(f"{folder}/{file}", text)
        log = check(folder, "--jobs", "1")
        names = renamed(crate, folder, log)
        if names:
            for path in names:
                texts.setdefault(path, read(f"{folder}/{path}"))
            for path, text in names.items():
                write(f"{folder}/{path}", text)
            log = check(folder, "--jobs", "1")
        for file, text in texts.items():
            write(f"{folder}/{file}", text)
        shutil.rmtree(f"{folder}/out/incremental", ignore_errors=True)  # the next check begins with what the checkout keeps
        return keep(crate, replacements, log)
    finally:
        copies.put(copy)


def edited(texts, replacements):
    texts = dict(texts)
    for file, old, new in replacements:
        if texts[file].count(old) != 1:
            raise Unreadable(f"{file}: not there once: {old}")
        texts[file] = texts[file].replace(old, new)
    return texts


def write(path, text):
    with open(path, "w", encoding="utf-8") as file:
        file.write(text)


def conditions(text):
    """The conditions that names of goals, places and fields are made of."""
    return {name for _, name in re.findall(rf"(?<![\w]){CONDITION}([\w'-]+)", text)}


def renamed(crate, folder, log):
    """The proof files of functions one of whose conditions has another name after an edit, with that name in the place of the old one."""
    lost, asked, folders, function, at = {}, {}, {}, "", ""
    for line in log.splitlines():
        error, one = ERROR.match(line), FUNCTION.match(line)
        if error:
            at = place_of(error[1])
            folders[at] = os.path.dirname(error[1])
            for name in re.findall(r"has no (?:field )?`([^`]*)`", error[3]):
                lost.setdefault(at, set()).update(conditions(name))
        elif one and one[1] == crate:
            function = one[2]
        if line.startswith("help: `Goals`"):
            asked.setdefault(function, set()).update(conditions(line.partition("rattle asks for")[2]))
        elif line.startswith("  the fields"):
            asked.setdefault(at, set()).update(conditions(line))
    found = {}
    for function, names in ((function, names) for function, names in lost.items() if folders[function]):
        paths = glob.glob(f"{folder}/proofs/{folders[function]}/*.antt")
        there = set().union(*(conditions(read(path)) for path in paths))
        new = {name for name in asked.get(function, ()) if name not in there}
        for name in sorted(names):
            near = difflib.get_close_matches(name, sorted(new), 1, 0)
            if near:
                new.discard(near[0])
                for path in paths:
                    inner = os.path.relpath(path, folder)
                    text = found.get(inner) or read(path)
                    found[inner] = re.sub(rf"{CONDITION}{re.escape(name)}(?![\w'-])", lambda m, to=near[0]: m[1] + to, text)
    return found


def place_of(path):
    """The function or the file of laws that a file of proofs is for: double/Answers, +double/Invariants, Laws."""
    folder, _, name = path.rpartition("/")
    return (folder if name in ("Answers", "Invariants", "Proof") else path).lstrip("+").replace("/", "::").replace("::+", "::")


def failing(crate, log):
    """The facts that a log shows to fail by themselves (place and name), and the places whose facts are others than before."""
    facts, others, opened = set(), set(), []
    for line in log.splitlines():
        error, goal, function = ERROR.match(line), OPEN.match(line), FUNCTION.match(line)
        if error and any(words in error[3] for words in OTHER_FACTS):
            others.add(place_of(error[1]))
        elif error and FOLLOWS not in error[3]:
            facts.add((place_of(error[1]), error[2]))
        elif goal:
            opened.append(goal[1])
        elif function and function[1] == crate:
            names = re.findall(r"`([^`]*)`", function[3].partition("`search` did not prove")[2])
            facts |= {(function[2], name) for name in opened + names}
            opened = []
    return facts, sorted(others)


def faults_of(path, log):
    """What is wrong with an edit file or its refusal."""
    crate = path.split("/")[1]
    programs, faults = wrong_programs(path)
    facts, others = failing(crate, log)
    faults += [f"it changes which facts {place} needs" for place in others]
    faults += [f"the prover cannot read it: {line[:200]}" for line in unread(log)[:1]]
    if not re.search(r"^logic=not-proved", log, re.M):
        lines = log.splitlines()
        faults.append(f"the prover does not refuse it: {lines[0][:200]} .. {lines[-1]}")
    shared = []
    for name, place, fact, replacements in programs:
        functions = reached(crate, replacements)
        if (place, fact) not in facts:
            waits = f"note: `search` has not tried the goals of `{crate}::{place}`" in log and place not in {one for one, _ in facts}
            why = "is not tried, since what it calls is wrong too" if waits else "does not fail"
            faults.append(f"{name}: {place} {fact} {why}; what does fail: {told(facts, functions | {place})}")
        if not functions and not any(file.startswith("specs/") for file, _, _ in replacements):
            faults.append(f"{name}: it changes no code and no definition")
        if any(file.startswith("proofs/") for file, _, _ in replacements):
            faults.append(f"{name}: it changes a proof")
        if len(programs) > 1:
            shared += sorted(functions)
            if "" in functions or place not in functions or any(not file.startswith("src/") for file, _, _ in replacements):
                faults.append(f"{name}: a wrong definition or contract, or a fact of another function, has a file of its own")
    faults += [f"two wrong programs reach {name}" for name in sorted(set(shared)) if shared.count(name) > 1]
    return [f"{path}: {fault}" for fault in faults]


def told(facts, places):
    """Facts that fail, those of some places where there are any."""
    some = [fact for fact in sorted(facts) if fact[0] in places] or sorted(facts)
    return ", ".join(f"{place}: {fact}" for place, fact in some) or "nothing"


def unread(log):
    """The errors of a log in code and definitions, which a wrong program has where it does not even read well."""
    return [line for line in log.splitlines() if re.match(r"(?:\./)?(?:src|specs)/\S+:\d+:\d+: error|error", line)]


def calls(one, other):
    """Whether a function calls another of its crate: a method by a dot or by its type, any other by its name alone or by its module."""
    owner, _, name = other.path.rpartition("::")
    before = {found[0] or found[1] for found in re.findall(rf"(?:(\w+) :: |(\.) )?\b{name} \(", one.body)}
    if other.method:
        return bool(before & {".", owner.split("::")[-1], "Self"})
    return bool(before & {"", owner.split("::")[-1], "self", "super", "crate"})


def called(function, functions):
    """The paths of a function and of all of its crate that it calls."""
    found, left = set(), [function]
    while left:
        one = left.pop()
        if one.path not in found:
            found.add(one.path)
            left += [other for other in functions if calls(one, other)]
    return found


def faults_of_crate(crate):
    """Names that stand twice, and public functions with fewer than two wrong programs."""
    programs = [program for path in edits(crate) for program in wrong_programs(path)[0]]
    names = [name for name, _, _, _ in programs]
    faults = [f"crates/{crate}: two wrong programs named {name}" for name in sorted(set(names)) if names.count(name) > 1]
    functions = source(crate).functions
    reach = [reached(crate, replacements) | {place} for _, place, _, replacements in programs]
    for function in (function for function in functions if function.public):
        paths = called(function, functions)
        count = sum(1 for some in reach if some & paths)
        faults += [f"crates/{crate}: {count} wrong programs for {function.path}"] if count < 2 else []
    return faults


def unseen(crate, log):
    """The functions that only one of the prover and the reader of these scripts finds."""
    proved = {one[2] for one in map(FUNCTION.match, log.splitlines()) if one and one[1] == crate and one[3] == "proved"}
    faults = [] if re.search(r"^logic=proved", log, re.M) else [f"crates/{crate}: not proved: {log[:300]}"]
    read = set(code(crate)[0])
    alone = {path for path in proved - read if not WRITTEN_FOR_IT.search(path)} | (read - proved)
    return faults + [f"crates/{crate}: found by the prover or the reader alone: {path}" for path in sorted(alone)]


def replacements_of(path):
    """All replacements of an edit file."""
    return [one for program in wrong_programs(path)[0] for one in program[3]]


def not_there(path):
    """The texts of an edit file that do not stand in the crate, once."""
    crate, texts = path.split("/")[1], {}
    for file, old, new in replacements_of(path):
        texts.setdefault(file, read(f"crates/{crate}/{file}") if os.path.exists(f"crates/{crate}/{file}") else "")
        if texts[file].count(old) != 1:
            return [f"{path}: not in {file} once: {old}"]
        texts[file] = texts[file].replace(old, new)
    return []


def room():
    """How many checks fit beside one another, or what RT_JOBS says, as for rt."""
    if os.environ.get("RT_JOBS", "").isdigit():
        return max(1, int(os.environ["RT_JOBS"]))
    with open("/proc/meminfo", encoding="ascii") as file:
        free = 1024 * int(re.search(r"MemAvailable:\s+(\d+)", file.read())[1])
    return max(1, min(len(os.sched_getaffinity(0)), free // MEMORY))


def logs_of(listed, paths):
    """What the prover says of each crate as it stands, and of each edit: what was kept of earlier runs, and the rest from checks, side by side."""
    forget()
    logs = {(crate, ""): kept(crate, []) for crate in listed}
    for crate in (crate for crate in listed if logs[crate, ""] is None):
        logs[crate, ""] = keep(crate, [], check(f"crates/{crate}"))
    logs |= {(path.split("/")[1], path): kept(path.split("/")[1], replacements_of(path)) for path in paths}
    left = [key for key, log in logs.items() if log is None]
    if left:
        lanes, copies = min(room(), len(left)), queue.Queue()
        with tempfile.TemporaryDirectory() as scratch, ThreadPoolExecutor(lanes) as pool:
            for lane in range(lanes):
                os.mkdir(f"{scratch}/{lane}")
                copies.put(copied(f"{scratch}/{lane}"))
            for key, log in zip(left, pool.map(lambda key: checked(key[0], replacements_of(key[1]), copies), left)):
                logs[key] = log
    return logs


def main():
    enter()
    listed, faults = [name for name in crates() if name in sys.argv[2:] or not sys.argv[2:]], []
    paths = [path for crate in listed for path in edits(crate)]
    try:
        wrong = {path: not_there(path) for path in paths}
        logs = logs_of(listed, [path for path in paths if not wrong[path]])
        faults += [fault for path in paths for fault in wrong[path] or faults_of(path, logs[path.split("/")[1], path])]
        faults += [fault for crate in listed for fault in faults_of_crate(crate) + unseen(crate, logs[crate, ""])]
    except Unreadable as error:
        faults.append(f"{error}")
    count = sum(len(wrong_programs(path)[0]) for path in paths)
    finish(faults, f"{count} wrong programs in {len(paths)} checks, each refused where it says")


if __name__ == "__main__":
    main()
