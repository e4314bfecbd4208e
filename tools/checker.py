"""The slow checker of transcripts, the program of crates/dht_checking, as tools ask it."""

import subprocess

import program

CHECKER = program.TOP / "crates" / "dht_checking" / "out" / "dht_checking"
SECONDS = 300

# How many cases the checker takes at a time: its input has a limit.
BATCH = 40


def add_checker(parser):
    """Lets a tool take another checker than the current one."""
    parser.add_argument("--checker", default=CHECKER, help="the program that checks transcripts")


def said_of(checker, cases):
    """What the checker says of a few cases, by their names."""
    text = "".join(
        f"case {name}\n" + "".join(f"{line}\n" for line in lines) + f"transcript\n{written}\n"
        for name, lines, written in cases
    )
    ran = subprocess.run(
        [checker], input=text, capture_output=True, text=True, timeout=SECONDS, check=True
    )
    return dict(line.rsplit(": ", 1) for line in ran.stdout.splitlines() if ": " in line)


def verdicts(checker, cases):
    """What the checker says of each case, by its name. It is given a few at a time."""
    said = {}
    for start in range(0, len(cases), BATCH):
        said |= said_of(checker, cases[start : start + BATCH])
    return said


def print_verdicts(checker, cases, failed):
    """Prints what failed, before the checker was asked and by its words, and the two counts."""
    said = verdicts(checker, cases)
    wrong = [name for name, _, _ in cases if said.get(name) != "right"]
    failed = failed + [f"{name}: {said.get(name)}" for name in wrong]
    print(*failed[:20], sep="\n", end="\n" if failed else "")
    return program.print_counts(len(cases) - len(failed), len(failed))
