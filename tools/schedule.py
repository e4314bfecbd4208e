"""The lines of a schedule: the words of each, and why a text is no schedule.

The tables name every kind of line, every verb, and the forms of words that came later than the
first ones. READ has the names of those that the program reads today: whoever teaches it another one
adds the name there. The test of the tools compares what is said here with what the program does.
"""

import argparse
import difflib
import re

READ = frozenset(
    {
        "volume",
        "remount",
        "call",
        "step",
        "down",
        "up",
        "die",
        "clients",
        "directories",
        "any-name",
        "lookup",
        "create",
        "mkdir",
        "unlink",
        "rmdir",
        "heal",
    }
)

# The words of each kind of line but volume, remount, call and poke, which have rules of their own.
KINDS = {
    "volume": [],
    "call": [],
    "step": ["client"],
    "down": ["brick"],
    "up": ["brick"],
    "die": ["client"],
    "remount": [],
    "cut": ["client"],
    "fail": ["client"],
    "poke": [],
}

VERBS = {
    "lookup": ["directory", "name"],
    "create": ["directory", "name"],
    "unlink": ["directory", "name"],
    "mkdir": ["directory", "name"],
    "rmdir": ["directory", "name"],
    "heal": ["directory"],
    "link": ["directory", "name", "directory", "name"],
    "rename": ["directory", "name", "directory", "name"],
    "open": ["directory", "name"],
    "close": ["handle"],
    "stat": ["handle"],
    "read": ["handle", "offset", "length"],
    "write": ["handle", "offset", "bytes"],
    "truncate": ["handle", "length"],
    "list": ["directory"],
    "rebalance": [],
    "team": ["member", "members"],
}

# The words of a poke, by the third of them.
POKES = {
    "layout": ["brick", None, "directory", "value"],
    "linkto": ["brick", None, "directory", "good name", "value"],
}

FORMS = {
    "clients": "a client number other than 0",
    "directories": "a directory other than `@`: `@` and the number of a call, or a gfid",
    "any-name": "a name that no file can have, for which a call answers an error",
    "munge": "the word `munge` at the end of a volume line",
    "caps": "the word `caps` and a number of bytes or `-` for each brick, at the end of that line",
}

NAMES = [*KINDS, *VERBS, *FORMS]

# What tools/expand reads besides.
EXPANDED = "tools/expand reads it, and writes it as plain lines"

GREATEST = 2**64 - 1
LONGEST_LINE = 16_384
LONGEST_INPUT = 16_777_216
LONGEST_NAME = 255
LONGEST_FILL = 4_096
TOO_LONG = f"the line has more than {LONGEST_LINE:,} bytes with its newline"
MOST_BRICKS = 32
GREATEST_WEIGHT = 1_000
GREATEST_CAP = 2**40
MOST_KEPT = 10_000

GFID = re.compile("[0-9a-f]{8}-[0-9a-f]{4}-[0-9a-f]{4}-[0-9a-f]{4}-[0-9a-f]{12}")
FILL = re.compile(r"f([0-9]+)\.[0-9a-f]{2}")


class Malformed(Exception):
    """A text is no line of a schedule; the message says why."""


def number(word, what, most=GREATEST):
    """The number of a word."""
    if not re.fullmatch("[0-9]+", word):
        raise Malformed(f"the {what} has to be a number in decimal digits, and not `{shown(word)}`")
    if word[0] == "0" and word != "0":
        plain = word.lstrip("0") or "0"
        raise Malformed(f"the {what} `{shown(word)}` has a zero in front; write `{shown(plain)}`")
    # Words of more digits are not even converted.
    if len(word) > len(str(most)) or int(word) > most:
        raise Malformed(f"the {what} `{shown(word)}` is above {most}, the greatest there is")
    return int(word)


def is_plain(byte):
    """Whether a byte of a name stands for itself."""
    return 0x21 <= byte <= 0x7E and byte != ord("%")


def escaped(word, at):
    """The byte that the `%` at this place of a name and the two digits after it spell."""
    digits = word[at + 1 : at + 3]
    if not re.fullmatch("[0-9a-fA-F]{2}", digits):
        raise Malformed(
            f"after `%` in `{shown(word)}` two hexadecimal digits have to stand; "
            "a percent sign is spelled `%25`"
        )
    if digits != digits.lower():
        raise Malformed(f"`%{digits}` is spelled in lower case: `%{digits.lower()}`")
    byte = int(digits, 16)
    if is_plain(byte):
        raise Malformed(f"`%{digits}` is spelled `{chr(byte)}`, as each name has one spelling")
    return byte


def spelled_name(word):
    """The bytes of a name, from its one spelling."""
    if word == "%-":
        return b""
    name, at = bytearray(), 0
    while at < len(word):
        is_escape = word[at] == "%"
        name.append(escaped(word, at) if is_escape else ord(word[at]))
        at += 3 if is_escape else 1
    return bytes(name)


def fault_of_name(name):
    """Why no file can have a name, or None where one can."""
    if not name:
        return "the empty name"
    if name in (b".", b".."):
        return f"the name `{name.decode()}`"
    if b"/" in name:
        return "a name with `/`"
    if b"\0" in name:
        return "a name with a zero byte"
    if len(name) > LONGEST_NAME:
        return f"a name of {len(name)} bytes, which is above {LONGEST_NAME},"
    return None


def read_good_name(word):
    """A name that a file can have."""
    fault = fault_of_name(spelled_name(word))
    if fault:
        raise Malformed(f"{fault} is none that a file can have")


def read_value(word):
    """Bytes in hexadecimal digits."""
    if word[:1] != "x":
        raise Malformed(f"`{shown(word)}` has to be `x` and hexadecimal digits in pairs")
    if not re.fullmatch("[0-9a-f]*", word[1:]):
        raise Malformed(f"after `x` in `{shown(word)}` only the digits 0 to 9 and a to f may stand")
    if len(word) % 2 == 0:
        raise Malformed(f"`{shown(word)}` has an odd number of digits; each byte has two")


def read_bytes(word):
    """Bytes in hexadecimal digits, or one byte that is repeated."""
    if word[:1] != "f":
        return read_value(word)
    found = FILL.fullmatch(word)
    if not found:
        raise Malformed(
            f"`{shown(word)}` has to be `f`, a count, a dot and two hexadecimal digits "
            "in lower case"
        )
    return number(found.group(1), "count", LONGEST_FILL)


def counted(count, one):
    """A count of things, in words."""
    return f"{count} {one}" if count == 1 else f"{count} {one}s"


def here(words, one="word"):
    """How many words there are, as a half of a sentence."""
    if not words:
        return "here is none"
    return f"here {'is' if len(words) == 1 else 'are'} {counted(len(words), one)}"


def shown(text, most=60):
    """A text as messages show it: what does not print is escaped, and what is long is cut."""
    text = text.encode("latin-1").decode("ascii", errors="backslashreplace")
    text = "".join(letter if letter.isprintable() else repr(letter)[1:-1] for letter in text)
    return text if len(text) <= most else text[: most - 3] + "..."


def guess(word, known):
    """What a word that is not known may have been meant to be."""
    found = difflib.get_close_matches(word, sorted(known), 1)
    return f"; is `{found[0]}` meant?" if found else f"; there are {listed(sorted(known))}"


def listed(words):
    """Words, with commas and `and` between them."""
    quoted = [f"`{word}`" for word in words]
    return " and ".join([", ".join(quoted[:-1])] * (len(quoted) > 1) + quoted[-1:])


def check_characters(text):
    """Only what prints in ASCII may stand in a line."""
    if text.endswith("\r"):
        raise Malformed("the line ends with a carriage return; a newline alone ends a line")
    found = re.search("[^ -~]", text)
    if found:
        byte = ord(found.group())
        what = "is a tab" if byte == 9 else f"is the byte {byte:02x}, which does not print in ASCII"
        raise Malformed(f"column {found.start() + 1} {what}; in a name it is spelled `%{byte:02x}`")


def check_spaces(text):
    """Words are parted by one space."""
    if text.startswith(" "):
        raise Malformed("the line begins with a space")
    if text.endswith(" "):
        raise Malformed("the line ends with a space")
    if "  " in text:
        raise Malformed(f"two spaces are at column {text.index('  ') + 1}; words are parted by one")


class Grammar:
    """The lines that are read: those of the names in `read`."""

    def __init__(self, read=READ):
        self.read = frozenset(read)

    def check(self, text, is_first=False):
        """Says why this is no line here, by `Malformed`. The text has no newline."""
        if not text:
            raise Malformed("the line is empty; tools/expand leaves empty lines out")
        if text.startswith("#"):
            raise Malformed("this is a comment; tools/expand reads comments, and leaves them out")
        check_characters(text)
        check_spaces(text)
        kind, *words = text.split(" ")
        self.check_place(kind, is_first)
        if kind == "run":
            raise Malformed(f"`run` is no kind of line; {EXPANDED}")
        if kind in VERBS:
            raise Malformed(f"`{kind}` is a verb, and stands in a call line, as `call 0 {kind} ..`")
        self.check_is_read(kind, KINDS, "kind of line")
        if kind in ("volume", "remount"):
            self.check_volume(kind, words)
        elif kind == "call":
            self.check_call(words)
        elif kind == "poke":
            self.check_poke(words)
        else:
            self.check_event(kind, words)

    def check_place(self, kind, is_first):
        """A volume line is the first one and no other."""
        if is_first and kind != "volume":
            raise Malformed("the first line has to be a `volume` line, as `volume 2 1 1`")
        if not is_first and kind == "volume":
            raise Malformed("a `volume` line is the first line and no other")

    def check_is_read(self, word, table, what):
        """A kind of line, or a verb, has to be one that is read."""
        if word not in table:
            raise Malformed(f"`{shown(word)}` is no {what}{guess(word, self.read & set(table))}")
        if word not in self.read:
            raise Malformed(f"the {what} `{word}` is not read yet")

    def check_event(self, kind, words):
        """The words of a line whose only word is a client or a brick."""
        if kind == "step" and len(words) == 3 and words[1] == "x":
            raise Malformed(f"a count of steps is no part of a line; {EXPANDED}")
        self.check_words(kind, KINDS[kind], words)

    def check_words(self, what, forms, words):
        """Words of these forms, which stand behind another word."""
        if len(words) != len(forms):
            needed = " ".join(form.upper() for form in forms) if forms else "no words"
            hint = ""
            if len(words) > len(forms) and forms[-1:] == ["name"]:
                hint = "; a space in a name is spelled `%20`"
            raise Malformed(f"`{what}` takes {needed}, and {here(words)}{hint}")
        for form, word in zip(forms, words):
            self.check_word(form, word)

    def check_word(self, form, word):
        """A word of this form."""
        readers = {
            "client": self.check_client,
            "directory": self.check_directory,
            "name": self.check_name,
            "good name": read_good_name,
            "value": read_value,
            "bytes": read_bytes,
        }
        if form in readers:
            readers[form](word)
        else:
            number(word, form)

    def check_client(self, word):
        if number(word, "client") != 0 and "clients" not in self.read:
            raise Malformed(f"the client is `{word}`, and client 0 is the only one yet")

    def check_directory(self, word):
        is_numbered = word.startswith("@") and word != "@"
        if is_numbered:
            number(word[1:], "call")
        elif word != "@" and not GFID.fullmatch(word):
            raise Malformed(f"`{shown(word)}` is no directory; the root directory is `@`")
        if word != "@" and "directories" not in self.read:
            raise Malformed(f"the directory is `{word}`, and the root, `@`, is the only one yet")

    def check_name(self, word):
        if "any-name" in self.read:
            spelled_name(word)
        else:
            read_good_name(word)

    def check_call(self, words):
        """The words of a call line."""
        if len(words) < 2:
            raise Malformed("`call` takes a client, a verb and its words, as `call 0 lookup @ a`")
        client, verb, *arguments = words
        self.check_client(client)
        self.check_is_read(verb, VERBS, "verb")
        self.check_words(verb, VERBS[verb], arguments)

    def check_poke(self, words):
        """The words of a line that sets an attribute."""
        what = words[1] if len(words) > 1 else ""
        if what not in POKES:
            raise Malformed(
                "`poke` takes BRICK layout DIRECTORY VALUE, or BRICK linkto DIRECTORY NAME VALUE"
            )
        forms = POKES[what]
        if len(words) != len(forms):
            raise Malformed(f"`poke` with `{what}` takes {len(forms)} words, and {here(words)}")
        for form, word in zip(forms, words):
            if form:
                self.check_word(form, word)

    def check_volume(self, kind, words):
        """The number of bricks, their weights, and what may follow."""
        if not words:
            raise Malformed(f"`{kind}` takes the number of bricks and a weight for each")
        bricks = number(words[0], "number of bricks")
        if not 1 <= bricks <= MOST_BRICKS:
            raise Malformed(f"a volume has 1 to {MOST_BRICKS} bricks, and not {bricks}")
        options = [word for word in words[1:] if word in ("munge", "caps")]
        end = words.index(options[0]) if options else len(words)
        weights = words[1:end]
        if len(weights) != bricks:
            counted_here = here(weights, "weight")
            raise Malformed(f"there has to be a weight for each brick, and {counted_here}")
        if not any([number(word, "weight", GREATEST_WEIGHT) for word in weights]):
            raise Malformed("at least one weight has to be above 0")
        self.check_options(bricks, words[end:])

    def check_options(self, bricks, words):
        """What may stand behind the weights."""
        for option in ("munge", "caps"):
            if option in words and option not in self.read:
                raise Malformed(f"the word `{option}` is not read yet")
        if words[:1] == ["munge"]:
            words = words[1:]
        if not words:
            return
        if words[0] != "caps":
            raise Malformed(f"`{shown(words[0])}` stands where a volume line has to end")
        if len(words) - 1 != bricks:
            raise Malformed(f"`caps` takes a word for each brick, and {here(words[1:])}")
        for word in words[1:]:
            if word != "-":
                number(word, "cap", GREATEST_CAP)

    def first_fault(self, content):
        """The number, text and fault of the first line of an input that is none, or None."""
        if not content:
            return 1, "", "the input is empty, and its first line has to be a `volume` line"
        # Most schedules have few different lines.
        fine = set()
        for count, (text, fault) in enumerate(lines_of(content), start=1):
            if text in fine and not fault:
                continue
            try:
                if fault:
                    raise Malformed(fault)
                self.check(text, is_first=count == 1)
            except Malformed as why:
                return count, text, str(why)
            if count > 1 and len(fine) < MOST_KEPT:
                fine.add(text)
        return None


def lines_of(content):
    """Each line of an input without its newline, with its fault where it is none by its length."""
    at = 0
    while at < len(content):
        end = content.find(b"\n", at)
        size = (len(content) if end < 0 else end + 1) - at
        text = content[at : at + min(size, LONGEST_LINE)].decode("latin-1")
        fault = None
        if size > LONGEST_LINE or (end < 0 and size == LONGEST_LINE):
            fault = TOO_LONG
        elif at + size > LONGEST_INPUT or (end < 0 and at + size == LONGEST_INPUT):
            fault = f"the line does not end within the first {LONGEST_INPUT:,} bytes of the input"
        elif end < 0:
            fault = "the line has no newline at its end"
        yield text.removesuffix("\n"), fault
        if fault:
            return
        at = end + 1


def add_read(parser):
    """Lets a tool take lines that are not read yet as read."""
    later = ", ".join(name for name in NAMES if name not in READ)
    parser.add_argument(
        "--read",
        action=AddRead,
        default=set(READ),
        choices=NAMES,
        metavar="NAME",
        help=f"take a line or a form as read that is not yet: {later}",
    )


class AddRead(argparse.Action):
    """Adds a name to those that are read."""

    def __call__(self, parser, namespace, value, option=None):
        namespace.read = namespace.read | {value}
