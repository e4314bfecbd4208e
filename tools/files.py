"""How the tools read what they are given and write what they make: no fault shows a stack trace."""

import os
import sys

# The statuses that the tools end with.
FINE = 0
WRONG_CONTENT = 1
WRONG_USE = 2


def fail(message, status=WRONG_USE):
    """Ends the tool with a message."""
    tool = os.path.basename(sys.argv[0])
    print(f"{tool}: {message}", file=sys.stderr)
    sys.exit(status)


def add_input(parser, what):
    """Lets a tool read a file, or the standard input."""
    parser.add_argument(
        "file",
        nargs="?",
        metavar="FILE",
        default="-",
        help=f"the {what}; with `-` or none the standard input",
    )


def read(path):
    """The bytes of a file, or of the standard input."""
    try:
        if path != "-":
            with open(path, "rb") as source:
                return source.read()
        if sys.stdin is None:
            fail("there is no standard input")
        return sys.stdin.buffer.read()
    except OSError as why:
        fail(f"{'the standard input' if path == '-' else path} cannot be read: {why.strerror}")


def write(text, path="-"):
    """Writes a text to a file, or to the standard output."""
    try:
        if path != "-":
            with open(path, "w", encoding="utf-8") as sink:
                sink.write(text)
        elif sys.stdout is None:
            fail("there is no standard output")
        else:
            sys.stdout.buffer.write(text.encode("utf-8"))
            sys.stdout.buffer.flush()
    except BrokenPipeError:
        # Nobody reads any more, as behind `| head`; what Python would still write goes nowhere.
        os.dup2(os.open(os.devnull, os.O_WRONLY), sys.stdout.fileno())
        sys.exit(FINE)
    except OSError as why:
        fail(f"{'the standard output' if path == '-' else path} cannot be written: {why.strerror}")
