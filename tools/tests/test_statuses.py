"""How the tools end: each input gives a status and a message, and none a stack trace."""

import os
import subprocess
import sys

import program

SUBJECT = "statuses"
SECONDS = 60

EXAMPLE = program.TOP / "examples" / "create-and-lookup.transcript"
SCHEDULE = program.TOP / "examples" / "create-and-lookup.schedule"
NONSENSE = bytes(range(256)) * 40

TOOLS = ["check-schedule", "expand", "draw", "explain"]
READERS = ["draw", "explain"]


def for_each(tools, words, source, status, message):
    """The same case for several tools."""
    return [(tool, words, source, status, message) for tool in tools]


# A tool, its words, its input, the status, and what is among the text that it writes.
CASES = [
    *for_each(TOOLS, ["/no/such/file"], b"", 2, "/no/such/file cannot be read"),
    *for_each(TOOLS, ["/"], b"", 2, "/ cannot be read"),
    *for_each(TOOLS, ["--no-such-word"], b"", 2, "usage: "),
    *for_each(TOOLS, ["a", "b"], b"", 2, "usage: "),
    *for_each(TOOLS, ["--help"], b"", 0, "Status 0"),
    *for_each(TOOLS, [], NONSENSE, 1, "line 1: "),
    *for_each(TOOLS, [], b"\n", 1, "line 1"),
    *for_each(READERS, [], b"", 1, "the transcript is empty"),
    *for_each(READERS, [], b"volume 2 1 1\nstep 0\n", 1, "line 2: `step 0` is no line"),
    *for_each(READERS, [], b"end\n", 1, "a transcript begins with its volume"),
    *for_each(READERS, [], b"malformed 1\n", 0, "malformed"),
    *for_each(READERS, [], b"volume 2 1 1\nstep 1 0 9999999999 look ok\n", 0, ""),
    *for_each(READERS, [], b"volume x\n", 1, "line 1: `volume x` is no line of a transcript"),
    *for_each(READERS, [], b"volume 2 1 1\nup " + 9999 * b"9" + b"\n", 1, "line 2: `up 9999"),
    *for_each(READERS, ["--lines", "30"], EXAMPLE.read_bytes(), 1, "there is no line 30"),
    *for_each(READERS, ["--lines", "8-7"], EXAMPLE.read_bytes(), 2, "ends before it begins"),
    *for_each(READERS, ["--lines", "0-7"], EXAMPLE.read_bytes(), 2, "is no range of lines"),
    *for_each(READERS, ["--lines", "-"], EXAMPLE.read_bytes(), 2, "is no range of lines"),
    *for_each(READERS, ["--lines", "7-8"], EXAMPLE.read_bytes(), 0, "F1"),
    *for_each(READERS, ["--lines=-3"], EXAMPLE.read_bytes(), 0, "1"),
    *for_each(READERS, ["--lines", "20-"], EXAMPLE.read_bytes(), 0, ""),
    *for_each(READERS, [str(EXAMPLE)], b"", 0, "F1"),
    ("draw", [], b"volume 1 1\n" + 600 * b"refused 2 idle\n", 0, "the lines 1 to 500 of 601"),
    ("draw", ["--output", "/no/such/file"], EXAMPLE.read_bytes(), 2, "cannot be written"),
    ("check-schedule", [str(SCHEDULE)], b"", 0, "the program reads all 11 lines"),
    ("check-schedule", [], b"", 1, "line 1: ``: the input is empty"),
    ("check-schedule", [], b"volume 2 1 1\nstep 0\0\n", 1, "line 2: `step 0\\x00`: column 7"),
    ("check-schedule", ["--read", "nothing"], b"", 2, "invalid choice"),
    ("check-schedule", ["--read", "clients"], b"volume 1 1\nstep 9\n", 0, "reads all 2 lines"),
    ("expand", [], b"", 1, "there is no line"),
    ("expand", [], b"volume 1 1\nstep 0 x 2", 0, "step 0\nstep 0\n"),
    ("expand", ["--program", "/no/such/program"], b"volume 1 1\nrun 0\n", 2, "cannot be run"),
    ("expand", ["--program", "/bin/true"], b"volume 1 1\nrun 0\n", 2, "no transcript"),
]


def run(tool, words, **streams):
    """What a tool ended with, and what it wrote."""
    return subprocess.run(
        [sys.executable, program.TOP / "tools" / tool, *words],
        stderr=subprocess.PIPE,
        timeout=SECONDS,
        check=False,
        **streams,
    )


def faults(ran, status):
    """A wrong status, and a stack trace."""
    if ran.returncode != status:
        yield f"ended with status {ran.returncode}, and not {status}: {ran.stderr[-300:]!r}"
    if b"Traceback" in ran.stderr:
        yield f"shows a stack trace: {ran.stderr[-300:]!r}"


def complaints(tool, words, source, status, message):
    """What is wrong with a case."""
    ran = run(tool, words, input=source, stdout=subprocess.PIPE)
    yield from faults(ran, status)
    if message.encode() not in ran.stdout + ran.stderr:
        yield f"says {(ran.stdout + ran.stderr)[:300]!r}, and not {message!r}"


def complaints_of_output(tool):
    """What is wrong where the output has no space."""
    source = SCHEDULE if tool in ("check-schedule", "expand") else EXAMPLE
    with open("/dev/full", "wb") as full:
        ran = run(tool, [str(source)], stdin=subprocess.DEVNULL, stdout=full)
    yield from faults(ran, 2)
    if b"cannot be written" not in ran.stderr:
        yield f"says {ran.stderr[:300]!r}"


def complaints_of_abandoned(tool):
    """What is wrong where nobody reads the output any more, as behind `| head -1`."""
    source = SCHEDULE if tool in ("check-schedule", "expand") else EXAMPLE
    reader, sink = os.pipe()
    os.close(reader)
    with open(sink, "wb") as output:
        ran = run(tool, [str(source)], stdin=subprocess.DEVNULL, stdout=output)
    yield from faults(ran, 0)


def cases(_built, _read):
    """A case for each row, and for each tool outputs that take nothing."""
    for tool, words, source, status, message in CASES:
        name = f"{tool} {' '.join(words)} < {source[:20]!r}"
        yield name, complaints(tool, words, source, status, message)
    for tool in TOOLS:
        yield f"{tool} > /dev/full", complaints_of_output(tool)
        yield f"{tool} whose reader has gone", complaints_of_abandoned(tool)
