"""What check-schedule says of the lines of schedule-lines.txt, and what the program does."""

import pathlib
import re
import subprocess

import schedule

SUBJECT = "check-schedule"
TABLE = pathlib.Path(__file__).with_name("schedule-lines.txt")
SECONDS = 120

# What stands around a line, by the heading that it stands under.
INPUTS = {
    "The first line": "%s\n",
    "A later line": "volume 2 1 1\n%s\n",
    "Names, on a later line": "volume 2 1 1\n%s\n",
    "Kinds of lines and verbs that came later": "volume 2 1 1\n%s\n",
    "A whole input": "%s",
}

ESCAPE = re.compile(r"\\(n|r|t|\\|x[0-9a-f]{2}|\{(?P<text>[^}]*)\*(?P<times>[0-9]+)\})")
LETTERS = {"n": "\n", "r": "\r", "t": "\t", "\\": "\\"}


def unescaped(text):
    """The text that a row stands for, a character for each byte."""

    def meaning(found):
        if found.group("text") is not None:
            return unescaped(found.group("text")) * int(found.group("times"))
        word = found.group(1)
        return LETTERS[word] if word in LETTERS else chr(int(word[1:], 16))

    return ESCAPE.sub(meaning, text)


def rows():
    """Each row of the table: the heading, the line, and what is said of it in one line or two."""
    heading, line, sayings = None, None, []
    for text in [*TABLE.read_text(encoding="ascii").splitlines(), "=="]:
        if text.startswith(("==", ">")) and line is not None:
            yield heading, line, sayings
            line = None
        if text.startswith("=="):
            heading = text[3:]
        elif text.startswith(">"):
            line, sayings = text[2:], []
        elif text and line is not None:
            sayings.append(text)


def said(sayings, read):
    """What a row says where the program reads these names: None that all is fine, or the reason."""
    text, *before = sayings
    condition = re.match("with ([a-z, -]+): ", text)
    if condition and not set(condition.group(1).split(", ")) <= read:
        return before[0] if before else "[..] yet"
    text = text[condition.end() :] if condition else text
    return None if text == "fine" else text


def is_said(reason, wanted):
    """Whether a reason is the one that is wanted, of which `[..]` leaves out a part."""
    if wanted is None or reason is None:
        return reason == wanted
    begin, dots, end = wanted.partition("[..]")
    if not dots or len(begin + end) > len(reason):
        return reason == wanted
    return reason == wanted or (reason.startswith(begin) and reason.endswith(end))


def malformed_line(built, content):
    """The number of the line that the program finds malformed, or None."""
    ran = subprocess.run(
        [built, "replay"], input=content, capture_output=True, timeout=SECONDS, check=False
    )
    last = ran.stdout.splitlines()[-1:]
    if ran.returncode == 3 and last and last[0].startswith(b"malformed "):
        return int(last[0].split()[1])
    if ran.returncode != 0:
        raise subprocess.CalledProcessError(ran.returncode, [built, "replay"])
    return None


def complaints(built, read, heading, line, sayings):
    """What is wrong with a row."""
    content = (INPUTS[heading] % unescaped(line)).encode("latin-1")
    fault = schedule.Grammar(read).first_fault(content)
    reason = fault and fault[2]
    wanted = said(sayings, read)
    if not is_said(reason, wanted):
        yield f"it is said: {reason or 'fine'}"
        yield f"and wanted: {wanted or 'fine'}"
    found = malformed_line(built, content)
    if found != (fault and fault[0]):
        yield f"the program says `malformed {found}`, and here the line is {fault and fault[0]}"


def names_without_row():
    """Names of lines and forms of which no row says that they are fine."""
    fine = set()
    for _, line, (text, *_) in rows():
        condition = re.fullmatch("with ([a-z, -]+): fine", text)
        if condition:
            fine.update(condition.group(1).split(", "))
        elif text == "fine":
            fine.update(unescaped(line).split())
    return [f"no row is fine with `{name}`" for name in schedule.NAMES if name not in fine]


def cases(built, read):
    """A case for each row, and one that no line or form is without a row."""
    yield "all names", names_without_row()
    for heading, line, sayings in rows():
        yield f"> {line[:80]}", complaints(built, read, heading, line, sayings)
