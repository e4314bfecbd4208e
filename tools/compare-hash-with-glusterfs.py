#!/usr/bin/env python3
"""Compares the hashes that `./dhtvol hash` prints with those of GlusterFS itself.

    tools/compare-hash-with-glusterfs.py [SEED]

GlusterFS's hash is `gf_dm_hashfn` of its library libglusterfs.so.0 (Debian: libglusterfs0). Where
there is no such library, the comparison is skipped. The names are random, of 0 to 255 bytes from 1
to 127: for these the two are to agree, while a byte above 127 counts as a negative number in
GlusterFS. A name that begins with `-` is no word of the command, and is left out.
"""

import ctypes
import pathlib
import random
import subprocess
import sys

LIBRARY = "libglusterfs.so.0"
PROGRAM = pathlib.Path(__file__).resolve().parent.parent / "dhtvol"
BATCHES = 8
NAMES_IN_A_BATCH = 500
LONGEST_NAME = 255


def gluster_hash():
    """GlusterFS's hash of a name, or None where its library is missing."""
    try:
        function = ctypes.CDLL(LIBRARY).gf_dm_hashfn
    except (OSError, AttributeError):
        return None
    function.argtypes = [ctypes.c_char_p, ctypes.c_int]
    function.restype = ctypes.c_uint32
    return lambda name: function(name, len(name))


def random_name(source):
    """A name that is a word of the command."""
    while True:
        length = source.randint(0, LONGEST_NAME)
        name = bytes(source.randint(1, 127) for _ in range(length))
        if not name.startswith(b"-"):
            return name


def spelled(name):
    """The spelling of a name in the lines of dhtvol."""
    if not name:
        return "%-"
    plain = lambda byte: 0x21 <= byte <= 0x7E and byte != ord("%")
    return "".join(chr(byte) if plain(byte) else "%%%02x" % byte for byte in name)


def printed(names):
    """The lines that dhtvol prints for the names."""
    run = subprocess.run(
        [PROGRAM, "hash", *names], stdout=subprocess.PIPE, check=False
    )
    if run.returncode != 0:
        sys.exit(f"dhtvol ended with status {run.returncode}")
    return run.stdout.decode("ascii").split("\n")


def compare(names, hash_of):
    """Ends the script at the first name whose line is not the one that GlusterFS's hash makes."""
    lines = printed(names)
    wanted = [f"{hash_of(name):08x} {spelled(name)}" for name in names] + [""]
    for name, line, expected in zip(names + [b""], lines, wanted):
        if line != expected:
            print(f"at the name {name!r}: dhtvol prints {line!r}, GlusterFS has {expected!r}")
            sys.exit(1)
    if len(lines) != len(wanted):
        print(f"dhtvol prints {len(lines) - 1} lines for {len(names)} names")
        sys.exit(1)


def main():
    hash_of = gluster_hash()
    if hash_of is None:
        print(f"skipped: there is no {LIBRARY} with gf_dm_hashfn")
        return
    seed = int(sys.argv[1]) if len(sys.argv) > 1 else random.randrange(2**32)
    print(f"seed {seed}")
    source = random.Random(seed)
    for _ in range(BATCHES):
        compare([random_name(source) for _ in range(NAMES_IN_A_BATCH)], hash_of)
    print(f"{BATCHES * NAMES_IN_A_BATCH} names agreed")


if __name__ == "__main__":
    main()
