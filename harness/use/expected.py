"""What `statement` is expected to do beside its text, worked out from the text by itself: its exit status, its tables and its explanations.

Written from docs/STATEMENT.md alone: the words of refusals are read from its table.
"""
import re

ROWS = ["own", "out", "in", "paid", "forfeited", "billed", "left"]
PERIODS = ["critical", "on-peak", "off-peak", "discount"]


def words(text):
    """What is wrong and what to do, by where a refusal is told and by its number."""
    found = {}
    for number, place, wrong, remedy in re.findall(r"^\| (\d+) \| (the opening|a month) \| (.*?) \| (.*?) \| `", text, re.M):
        found[place, int(number)] = wrong, remedy
    return found


def refusal(line):
    """Where a printed line tells a refusal, and its number."""
    opening, month = re.match(r"open=(\d+)", line), re.match(r"bill=\S+ answer=(\d+)", line)
    if opening and opening[1] != "0":
        return "the opening", int(opening[1])
    if month and month[1] != "0":
        return "a month", int(month[1])
    return None


def status(printed):
    lines = printed.splitlines()
    if any(line.startswith("line=") for line in lines):
        return 2
    return 1 if any(refusal(line) for line in lines) else 0


def month_table(line):
    fields = dict(field.split("=") for field in line.split())
    amounts = {name: [int(number) for number in fields[name].split(",")] for name in ROWS}
    money = [int(fields["energy"]), int(fields["due"])]
    columns = [[*amounts[name], sum(amounts[name])] for name in ROWS]
    width = 13 if max(max(map(max, columns)), *money) <= 999_999_999 else 28
    rows = [[fields["bill"]] + [f"{place} {name}" for place, name in enumerate(ROWS, 3)]]
    rows += [[label] + [f"{column[place]:,}" for column in columns] for place, label in enumerate([*PERIODS, "sum"])]
    rows += [[label, f"{cents // 100:,}.{cents % 100:02}"] for label, cents in zip(["energy", "due"], money)]
    return "".join(row[0].ljust(8) + "".join(cell.rjust(width) for cell in row[1:]) + "\n" for row in rows)


def table(printed, known):
    """What --table prints where the statement is `printed`."""
    text = ""
    for line in printed.splitlines():
        refused = refusal(line)
        if line.startswith("line="):
            text += f"stopped at line {line.removeprefix('line=')}\n"
        elif refused and refused[0] == "the opening":
            text += f"opening refused, {refused[1]}: {known[refused][0]}\n"
        elif refused:
            text += f"{line[5:12]}  refused, {refused[1]}: {known[refused][0]}\n"
        elif line == "open=0":
            text += "account opened\n"
        else:
            text += month_table(line)
        text += "\n"
    return text


def explanations(printed, known):
    """What --explain says on standard error where the statement is `printed`."""
    text = ""
    for line in printed.splitlines():
        refused = refusal(line)
        if line.startswith("line="):
            text += f"{line}: not a line that can stand there, or the input ends before it; correct the line and run the file again\n"
        elif refused:
            text += f"{' '.join(line.split()[:2])}: {'; '.join(known[refused])}\n"
    return text
