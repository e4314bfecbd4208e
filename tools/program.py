"""What the tools that run the built program share."""

import pathlib
import subprocess
import sys

TOP = pathlib.Path(__file__).resolve().parent.parent
# Where `rt ci` and `./dhtvol` leave the program.
PROGRAM = TOP / "crates" / "dhtvol" / "out" / "dhtvol"


def current_program():
    """The program, which `./dhtvol` proves and builds first where it is not that of the sources."""
    made = subprocess.run(
        [TOP / "dhtvol", "hash", "a"],
        stdin=subprocess.DEVNULL,
        stdout=subprocess.DEVNULL,
        check=False,
    )
    if made.returncode != 0:
        sys.exit("there is no program to run")
    return PROGRAM


def add_program(parser):
    """Lets a tool take another program than the current one."""
    parser.add_argument(
        "--program",
        metavar="FILE",
        type=pathlib.Path,
        help="run this program; else the current one, which is built first where there is none",
    )


def program_of(words):
    """The program that a tool's words ask for."""
    return words.program.resolve() if words.program else current_program()


def print_counts(passed, failed):
    """Prints the last line of a check, and gives the status to end with."""
    print(f"{passed} passed, {failed} failed")
    return 1 if failed else 0
