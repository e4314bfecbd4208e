"""The lines of a transcript, read, and what is known between them."""

import argparse
import dataclasses
import re

NUMBER = "(?:0|[1-9][0-9]{0,19})"
GFID = "[0-9a-f]{8}-[0-9a-f]{4}-[0-9a-f]{4}-[0-9a-f]{4}-[0-9a-f]{12}"
ROOT = "00000000-0000-0000-0000-000000000001"


def form(text):
    """A form of a line: a word in capitals stands for a field of the same name."""
    for names, kind in (("CALL|CLIENT|BRICK|HOLDER|AT|LINE", NUMBER), ("WORD|VERB", "[a-z-]+")):
        text = re.sub(names, lambda found, kind=kind: f"(?P<{found[0].lower()}>{kind})", text)
    return re.compile(text.replace("REST", "(?P<rest>.+)").replace("GFID", GFID))


FORMS = {
    "volume": form(f"volume (?P<rest>{NUMBER}(?: [^ ]+)*)"),
    "remount": form(f"remount (?P<rest>{NUMBER}(?: [^ ]+)*)"),
    "down": form("down BRICK"),
    "up": form("up BRICK"),
    "die": form("die CLIENT"),
    "poke": form("poke BRICK REST"),
    "call": form("call CALL CLIENT VERB(?: REST)?"),
    "step": form("step CALL CLIENT BRICK WORD (?P<reply>[a-z:]+)(?P<cut> cut)?"),
    "wait": form("wait CALL CLIENT BRICK HOLDER(?P<cut> cut)?"),
    "tree": form("tree CALL WORD REST"),
    "answer": form("answer CALL CLIENT(?: at AT)? REST"),
    "entry": form("entry REST"),
    "skip": form("skip (?P<directory>GFID) REST"),
    "refused": form("refused LINE WORD"),
    "malformed": form("malformed LINE"),
    "limit": form("limit"),
    "brick": form("brick BRICK WORD"),
    "dir": form("dir BRICK (?P<directory>GFID) REST"),
    "slot": form("slot BRICK (?P<directory>GFID) REST"),
    "file": form("file BRICK (?P<gfid>GFID) REST"),
    "end": form("end"),
}

# The lines of what the bricks contain in the end.
DUMP = {"brick", "dir", "slot", "file", "end"}
NUMBERS = {"call", "client", "brick", "holder", "at", "line"}

ERRORS = {
    "enoent": "there is no such name",
    "eio": "a brick failed",
    "ebadf": "there is no such handle",
    "enomem": "a brick had no memory for it",
    "eexist": "there is such a name already",
    "enotdir": "it is no directory",
    "eisdir": "it is a directory",
    "einval": "its words make no sense",
    "efbig": "the file would become too large",
    "enospc": "there is no space",
    "enametoolong": "the name is too long, or the directories are nested too deeply",
    "enotempty": "the directory is not empty",
    "eopnotsupp": "this is not supported",
    "enotconn": "a brick was down",
    "estale": "the directory is not there",
}


class NoTranscript(Exception):
    """A text is no transcript; the message says why."""


@dataclasses.dataclass
class Line:
    """A line: its number, its text, its first word, and its fields by their names."""

    number: int
    text: str
    kind: str
    fields: dict

    def __getattr__(self, name):
        try:
            return self.fields[name]
        except KeyError:
            raise AttributeError(name) from None

    @property
    def words(self):
        """The words of the last field."""
        return (self.rest or "").split(" ")


def read_line(number, text):
    """The line of a text."""
    kind = text.split(" ", 1)[0]
    found = FORMS[kind].fullmatch(text) if kind in FORMS else None
    if not found or not text.isascii() or not text.isprintable():
        cut = ascii(text[:60])[1:-1]
        raise NoTranscript(f"line {number}: `{cut}` is no line of a transcript")
    fields = {
        name: int(word) if name in NUMBERS and word is not None else word
        for name, word in found.groupdict().items()
    }
    return Line(number, text, kind, fields)


def read(content):
    """The lines of a transcript."""
    text = content.decode("latin-1")
    if not text:
        raise NoTranscript("the transcript is empty")
    texts = text.removesuffix("\n").split("\n")
    lines = [read_line(number, text) for number, text in enumerate(texts, start=1)]
    if lines[0].kind not in ("volume", "malformed"):
        raise NoTranscript(f"line 1: `{lines[0].text[:60]}`: a transcript begins with its volume")
    return lines


class Gfids:
    """Short names for gfids: R for the root, F1 for the file and D1 for the directory of call 1."""

    def __init__(self, lines):
        self.short = {ROOT: "R"}
        for line in lines:
            if line.kind == "tree" and line.word in ("add-file", "add-dir"):
                gfid = line.words[-1]
                name = f"{'F' if line.word == 'add-file' else 'D'}{line.call}"
                if name not in self.short.values():
                    self.short.setdefault(gfid, name)

    def name(self, gfid):
        """The short name of a gfid; of one that no call made, its parts without spare zeros."""
        parts = [part.lstrip("0") or "0" for part in gfid.split("-")]
        return self.short.get(gfid, "-".join(parts))

    def shorten(self, text):
        """A text with each gfid in it shortened."""
        return re.sub(f"(?<![^ ]){GFID}(?![^ ])", lambda found: self.name(found[0]), text)

    def legend(self):
        """Each short name with its gfid."""
        return [(name, gfid) for gfid, name in self.short.items()]


def line_range(text):
    """A range of lines as `--lines` takes it: `8-30`, `8-`, `-30` or `8`."""
    found = re.fullmatch("([1-9][0-9]{0,15})?(-)?([1-9][0-9]{0,15})?", text)
    if not found or not text.strip("-") or (found[1] and found[3] and not found[2]):
        raise argparse.ArgumentTypeError(f"`{text}` is no range of lines, as 8-30, 8- or -30")
    first = int(found[1] or 1)
    last = int(found[3]) if found[3] else None if found[2] else first
    if last is not None and last < first:
        raise argparse.ArgumentTypeError(f"the range `{text}` ends before it begins")
    return first, last


def add_lines(parser):
    """Lets a tool take a part of a transcript."""
    parser.add_argument(
        "--lines",
        type=line_range,
        metavar="A-B",
        help="only the lines A to B of the transcript; A- is all from A on, and -B all up to B",
    )


def chosen(lines, wanted):
    """The lines of a range."""
    first, last = wanted or (1, None)
    found = lines[first - 1 : last]
    if not found:
        raise NoTranscript(f"there is no line {first}: the transcript has {len(lines)} lines")
    return found
