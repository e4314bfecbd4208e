"""tools/expand against tools/tests/expansions.txt."""

import pathlib
import re

import expansion
import schedule

SUBJECT = "expand"
TABLE = pathlib.Path(__file__).with_name("expansions.txt")


def scripts():
    """The name of each case, its schedule, and the lines that are wanted."""
    parts = re.split("^== (.*)\n", TABLE.read_text(encoding="ascii"), flags=re.MULTILINE)
    for name, script in zip(parts[1::2], parts[2::2]):
        source, wanted = script.split("--\n")
        lines = [line for line in wanted.splitlines() if line and not line.startswith("#")]
        yield name, source, lines


def said(wanted, read):
    """What is wanted where the program reads these names: lines, or a message behind `!`."""
    condition = re.fullmatch("with ([a-z, -]+):", wanted[0])
    if condition and not set(condition.group(1).split(", ")) <= read:
        return None
    lines = []
    for line in wanted[1:] if condition else wanted:
        times = re.fullmatch("[*]([0-9]+) (.*)", line)
        lines.extend([times[2]] * int(times[1]) if times else [line])
    return lines


def made(built, read, source):
    """What is made of a schedule: lines, or a message behind `!`."""
    work = expansion.Expansion(schedule.Grammar(read), expansion.Asked(lambda: built))
    try:
        return work.lines_of(source.encode("ascii"))
    except expansion.NoSchedule as why:
        return [f"! {why}"]


def complaints(built, read, source, wanted):
    """What is wrong with a case."""
    found, lines = made(built, read, source), said(wanted, read)
    if lines is None:
        if not (found[0].startswith("! ") and found[0].endswith(" yet")):
            yield f"made is {found}, and wanted that this is not read yet"
    elif found != lines:
        yield f"made is   {found}"
        yield f"wanted is {lines}"


def complaints_of_plain(built, read, source):
    """A plain schedule that is expanded again stays as it is, and is one that is read."""
    lines = made(built, read, source)
    if not lines[0].startswith("! "):
        plain = "".join(f"{line}\n" for line in lines)
        if schedule.Grammar(read).first_fault(plain.encode("ascii")):
            yield "the plain schedule is not read"
        if made(None, read, plain) != lines:
            yield "the plain schedule does not stay as it is"


def cases(built, read):
    """A case for each script, and one for what it makes."""
    for name, source, wanted in scripts():
        yield name, complaints(built, read, source, wanted)
        yield f"{name}, once more", complaints_of_plain(built, read, source)
