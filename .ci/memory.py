"""Holds the built library to 02 No. 2: its read-only data has the schedule as 96 bytes, bills are made from these, and no plain form of the entries stands beside.

Two looks. The first is at the object file: the 96 bytes stand in its read-only data once, no eight entries stand there in a row, each in a number of its own, and no
instruction has entries as a constant, one to a byte or packed. The second is at what `kozempil_call` does in January and July 2001: it bills by the windows of
document 01, and with other entries in the place of the 96 bytes by those, entry 4 × b + k in bits 2k and 2k + 1 of byte b. So these bills take the schedule from
there and from nowhere else, in whatever form.
"""
import re
import subprocess
import tempfile

from source import enter, finish

LIBRARY = "target/staticlib/libkozempil.a"
ENTRIES = re.compile(b"|".join(rb"(?:[\x01-\x03]\x00{%d}){8}" % (width - 1) for width in (1, 2, 4, 8)))  # in data, numbers of so many bytes
MOVED = re.compile(r"\tmov\w* +\$0x([0-9a-f]+),")  # a constant that an instruction stores, or puts into a register that may be stored
ONE_BY_ONE = re.compile(r"(?:.*\tmovb +\$0x[1-3],.*\(.*\n){8}")  # eight instructions in a row, each of which stores an entry


def windows():
    """The fixed schedule of document 01: on-peak, discount and off-peak quarters of winter weekdays and weekends, then of summer's."""
    on_peak = (range(68, 84), range(68, 84), range(52, 72), ())
    return [1 if quarter in row else 3 if quarter in range(4, 24) else 2 for row in on_peak for quarter in range(96)]


def packed(entries):
    return bytes(sum(entry << 2 * place for place, entry in enumerate(entries[at : at + 4])) for at in range(0, len(entries), 4))


def run(*command):
    return subprocess.run(command, check=True, stdout=subprocess.PIPE).stdout


def sections(path):
    """Name, place in the file and bytes of each section of an object file that is read-only data."""
    with open(path, "rb") as file:
        data = file.read()
    for line in run("objdump", "-hw", path).decode().splitlines():
        if "READONLY" in line and "DATA" in line:
            _, name, size, _, _, at, *_ = line.split()
            yield name, int(at, 16), data[int(at, 16) :][: int(size, 16)]


def in_a_row(constant):
    """Whether a constant of four bytes or more has nothing but entries, one to a byte, or nothing but bytes of the packed schedule. Those that have other uses,
    to count bits or as a mask, are left out: 1 in each byte, and one of the packed bytes in each."""
    found = set(bytes.fromhex(constant.zfill(len(constant) + len(constant) % 2)))
    return len(constant) > 6 and (found <= {1, 2, 3} and found != {1} or found <= {0x55, 0xAA, 0xFF} and len(found) > 1)


def faults_of_object(path):
    """Where the packed schedule stands in an object file, and what is wrong with the file."""
    table, places, faults = packed(windows()), [], []
    for name, at, data in sections(path):
        places += [at + found.start() for found in re.finditer(re.escape(table), data)]
        faults += [f"{name}: entries of a schedule in a row"] if ENTRIES.search(data) else []
    faults += [] if len(places) == 1 else [f"the 96 bytes of the schedule stand {len(places)} times in read-only data"]
    code = run("objdump", "-d", "--no-show-raw-insn", path).decode()
    faults += ["instructions store entries of a schedule one by one"] if ONE_BY_ONE.search(code) else []
    return places, faults + [f"an instruction has 0x{constant}, entries of a schedule" for constant in sorted(set(MOVED.findall(code))) if in_a_row(constant)]


def periods(path, scratch):
    """The period in which the library of an object file counts each quarter-hour of the four kinds of days."""
    run("cc", "-std=c99", "-Wall", "-Wextra", "-Werror", "-pedantic", "-Iinclude", "harness/memory/periods.c", path, "-o", f"{scratch}/periods")
    return [digit - ord("0") for digit in run(f"{scratch}/periods").strip()]


def faults_of_library(path, scratch):
    """What is wrong with a library in an object file of its own, in which other entries are put in the place of the schedule."""
    places, faults = faults_of_object(path)
    faults += [] if periods(path, scratch) == windows() else ["the library does not bill by the windows"]
    for digit in range(5 if len(places) == 1 else 0):  # of each place in base 4: no two places have the same five
        other = [place // 4**digit % 4 for place in range(384)]
        with open(path, "r+b") as file:
            file.seek(places[0])
            file.write(packed(other))
        if periods(path, scratch) != other:
            return [*faults, "the library does not bill by the 96 bytes"]
    return faults


def main():
    enter()
    if len(run("ar", "t", LIBRARY).split()) != 1:
        finish([f"{LIBRARY}: it has not exactly one object file"], "")
    with tempfile.TemporaryDirectory() as scratch:
        with open(f"{scratch}/library.o", "wb") as file:
            file.write(run("ar", "p", LIBRARY))
        finish(faults_of_library(f"{scratch}/library.o", scratch), f"memory: {LIBRARY} has the schedule once, in 96 bytes, and bills by these")


if __name__ == "__main__":
    main()
