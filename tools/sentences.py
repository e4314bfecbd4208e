"""What each line of a transcript says, as a sentence."""

import transcript

# What a client asks a brick, and what `ok` means there.
REQUESTS = {
    "lock": ("for a lock", "it has it"),
    "unlock": ("to take a lock back", "done"),
    "register": ("to note that it has the file open", "noted"),
    "unregister": ("to forget that it has the file open", "done"),
    "seal": ("to let nobody open the file any more", "done"),
    "look": ("what it has under the name", "it is told"),
    "page": ("for the next names of the directory", "it is told"),
    "dirinfo": ("about the directory", "it is told"),
    "setlayout": ("to take other hashes of the directory", "done"),
    "mkdir": ("to make the directory", "done"),
    "dropdir": ("to drop the directory", "done"),
    "create": ("to make the file", "done"),
    "mklinkto": ("to note at the name which brick has the file", "noted"),
    "droplinkto": ("to drop its note which brick has the file", "done"),
    "unlink": ("to take the name from the file", "done"),
    "link": ("to give the file this name too", "done"),
    "linkover": ("to give the file this name, which another file has", "done"),
    "move": ("to give the file this name in place of its other one", "done"),
    "contest": ("to note that another brick takes the name over", "noted"),
    "uncontest": ("to forget that another brick takes the name over", "done"),
    "standlink": ("to hold the name ready for the file", "done"),
    "dropstandlink": ("to hold the name ready no more", "done"),
    "swap": ("to hand the name over to the other brick", "done"),
    "promotelink": ("to give the file the name that is held ready", "done"),
    "orphans": ("for files without a name", "it is told"),
    "read": ("for bytes of the file", "it gets them"),
    "write": ("to write into the file", "done"),
    "lwrite": ("to write into the file, under its lock", "done"),
    "truncate": ("to set the file's length", "done"),
    "ltruncate": ("to set the file's length, under its lock", "done"),
    "stat": ("for the file's length", "it is told"),
    "mark": ("to mark the file as one that moves", "done"),
    "unmark": ("to mark the file as one that stays", "done"),
    "mkstandby": ("to begin a copy of the file", "done"),
    "standbywrite": ("to change the copy as the file will be", "done"),
    "copywrite": ("to write a part of the file into the copy", "done"),
    "cleardirty": ("to note that file and copy agree", "noted"),
    "dropstandby": ("to drop the copy", "done"),
    "demote": ("to send everybody to the copy", "done"),
    "promote": ("to take the copy as the file", "done"),
    "drop": ("to drop the file", "done"),
    "space": ("how many bytes its files have", "it is told"),
}

REPLIES = {
    "down": "the brick is down, and nothing is done",
    "failed": "the brick fails, and nothing is done",
    "nomem": "the brick has no memory for it, and nothing is done",
}

CAUSES = {
    "busy": "a call of this client is running",
    "idle": "no call of this client is running",
    "unknown": "there is no such client, or no such brick",
    "dead": "the client is dead",
    "answer": "the call that it names has answered no gfid",
    "open": "a call is running, or a file is open",
    "fewer": "bricks would be lost",
    "unlock": "the next request gives a lock back, which cannot fail",
    "slot": "there is no such directory, or something else is at the name",
    "committed": "the directory's layout is in force",
    "failed": "the brick failed",
}

CALLS = {
    "lookup": "look up {}",
    "create": "make a file {}",
    "unlink": "remove the file {}",
    "mkdir": "make a directory {}",
    "rmdir": "remove the directory {}",
    "open": "open {}",
    "link": "give the file {} the name {} too",
    "rename": "rename {} to {}",
    "list": "list the directory {}",
    "heal": "heal the directory {}",
    "rebalance": "bring each file to the brick that its hash names",
    "close": "close handle {}",
    "stat": "tell the length of the file of handle {}",
    "read": "read from handle {}, from byte {} on, {} bytes",
    "write": "write to handle {}, from byte {} on, the bytes {}",
    "truncate": "set the length of the file of handle {} to {}",
    "team": "bring files to the bricks that their hashes name, as member {} of {}",
}

TREE = {
    "add-file": "`{1}` in {0} is the file {2} now",
    "add-dir": "`{1}` in {0} is the directory {2} now",
    "remove-file": "`{1}` in {0} is there no more",
    "remove-dir": "`{1}` in {0} is there no more",
    "link-over": "`{1}` in {0} is the file {2} now",
    "move": "`{3}` in {2} is the file {4} now, and `{1}` in {0} is there no more",
    "write": "the file {0} has {2} other bytes from {1} on",
    "cut": "the file {0} has {1} bytes now",
}

# The words of these calls begin with pairs of a directory and a name.
PAIRED = {"lookup", "create", "unlink", "mkdir", "rmdir", "open", "link", "rename"}


def count(number, one):
    """A count of things."""
    return f"{number} {one}" if int(number) == 1 else f"{number} {one}s"


def directory(gfid, gfids):
    """A directory, as sentences name it."""
    name = gfids.name(gfid)
    return "the root directory R" if name == "R" else f"the directory {name}"


def call_words(line, gfids):
    """What a call is to do."""
    words = line.words if line.rest else []
    if line.verb in PAIRED:
        places = zip(words[::2], words[1::2])
        words = [f"`{name}` in {directory(gfid, gfids)}" for gfid, name in places]
    told = CALLS.get(line.verb)
    if not told or told.count("{}") != len(words):
        return gfids.shorten(" ".join([line.verb, *words]))
    return told.format(*[gfids.name(word) if len(word) == 36 else word for word in words])


def reply_words(line):
    """What a brick replies."""
    _, fine = REQUESTS.get(line.word, ("", "done"))
    if line.reply.startswith("refused:"):
        said = f"refused, as the reason `{line.reply[8:]}` applies"
    else:
        said = REPLIES.get(line.reply, fine)
    return said + ("; the brick goes down before it says so" if line.cut else "")


def of_step(line, _gfids):
    """A request and its reply."""
    asked, _ = REQUESTS.get(line.word, (f"for `{line.word}`", ""))
    return f"Client {line.client} asks brick {line.brick} {asked}: {reply_words(line)}."


def of_wait(line, _gfids):
    """A lock that is not granted yet."""
    end = "; the brick goes down before it says so" if line.cut else ""
    return (
        f"Client {line.client} asks brick {line.brick} for a lock, and waits, "
        f"as client {line.holder} holds one that excludes it{end}."
    )


def of_tree(line, gfids):
    """A change of the directory tree."""
    words = gfids.shorten(line.rest).split(" ")
    made = f"; {words[-1]} is {line.words[-1]}" if line.word in ("add-file", "add-dir") else ""
    try:
        changed = TREE[line.word].format(*words)
    except (KeyError, IndexError):
        changed = " ".join([line.word, *words])
    return f"So the tree changes: {changed}{made}."


def answer_words(words, gfids):
    """What a call answers."""
    kind, *rest = [gfids.name(word) if len(word) == 36 else word for word in words]
    told = {
        "file": "it is the file {}",
        "dir": "it is the directory {}",
        "made": "it made {}",
        "handle": "handle {} of the file {} is open",
        "bytes": "the bytes {}",
        "size": "the length is {}",
        "done": "done; the number of files that moved is {}",
        "skipped": "the number of files that moved is {}, and that of names passed over {}",
    }
    if kind in transcript.ERRORS:
        return f"`{kind}`, {transcript.ERRORS[kind]}"
    if kind in told and told[kind].count("{}") == len(rest):
        return told[kind].format(*rest)
    if kind == "ok":
        return f"the number of names is {rest[0]}" if len(rest) == 1 else "done"
    return " ".join([kind, *rest])


def of_answer(line, gfids):
    """The answer of a call."""
    where = "" if line.at is None else f" This is what the tree says after line {line.at}."
    answer = answer_words(line.words, gfids)
    return f"Call {line.call} answers client {line.client}: {answer}.{where}"


def of_volume(line, _gfids):
    """The volume, or a new one over the same bricks."""
    bricks, *words = line.words
    is_first = line.kind == "volume"
    begin = "There is a volume" if is_first else "The volume is mounted anew: it is one"
    weights, options = words[: int(bricks)], words[int(bricks) :]
    what = "brick of the weight" if bricks == "1" else "bricks of the weights"
    told = f"{begin} of {bricks} {what} {', '.join(weights)}"
    return f"{told}, with `{' '.join(options)}`." if options else f"{told}."


def linkto_words(value):
    """A note which brick has the file, by the brick's name, which may end with a zero byte."""
    try:
        named = bytes.fromhex(value[1:]).removesuffix(b"\0").decode("ascii")
    except ValueError:
        named = ""
    where = f"`{named}`" if named.isprintable() and named else f"the brick of the bytes {value}"
    return f"a note that {where} has the file"


def of_slot(line, gfids):
    """A name on a brick."""
    name, *parts = [gfids.name(word) if len(word) == 36 else word for word in line.words]
    kind, *rest = parts[: parts.index("-", 1)] if "-" in parts[1:] else parts
    begin = f"Brick {line.brick} has at `{name}` in {directory(line.directory, gfids)}"
    told = {
        "dir": "the directory {}",
        "data": "the file {}",
        "linkto": "{}",
    }
    if parts[-1] == "-" and kind in told and len(rest) == 1:
        what = linkto_words(rest[0]) if kind == "linkto" else rest[0]
        return f"{begin} {told[kind].format(what)}."
    return f"{begin}: {' '.join(parts)}."


def of_record(line, gfids):
    """A file's record on a brick."""
    state, *numbers = line.words
    if state == "live" and len(numbers) == 4:
        told = f"the file itself, with {count(numbers[1], 'name')} and {count(numbers[2], 'byte')}"
    else:
        told = f"the record `{' '.join(line.words)}`"
    return f"Brick {line.brick} has of {gfids.name(line.gfid)} {told}."


def of_range(line, gfids):
    """A directory on a brick, with the hashes that are the brick's."""
    value, where = line.rest, directory(line.directory, gfids)
    if value == "-":
        return f"Brick {line.brick} has {where}, and no hashes of it."
    if len(value) == 32:
        hashes = f"{value[16:24]} to {value[24:]}"
        return f"Brick {line.brick} has {where}, and the hashes {hashes} of it."
    return f"Brick {line.brick} has {where}, with the value {value}."


SENTENCES = {
    "volume": of_volume,
    "remount": of_volume,
    "down": lambda line, _: f"Brick {line.brick} goes down.",
    "up": lambda line, _: f"Brick {line.brick} comes back.",
    "die": lambda line, _: f"Client {line.client} dies, and its locks are free.",
    "poke": lambda line, gfids: (
        f"Brick {line.brick} is changed from outside: {gfids.shorten(line.rest)}."
    ),
    "call": lambda line, gfids: (
        f"Client {line.client} begins call {line.call}: {call_words(line, gfids)}."
    ),
    "step": of_step,
    "wait": of_wait,
    "tree": of_tree,
    "answer": of_answer,
    "entry": lambda line, _: f"One of the names is `{line.rest}`.",
    "skip": lambda line, gfids: (
        f"Passed over: `{line.rest}` in {directory(line.directory, gfids)}."
    ),
    "refused": lambda line, _: (
        f"Line {line.line} of the schedule is refused, and nothing happens: "
        f"{CAUSES.get(line.word, line.word)}."
    ),
    "malformed": lambda line, _: (
        f"Line {line.line} of the schedule is malformed, and the run ends."
    ),
    "limit": lambda line, _: "The run has as many steps as it may have, and ends.",
    "brick": lambda line, _: f"In the end brick {line.brick} is {line.word}.",
    "dir": of_range,
    "slot": of_slot,
    "file": of_record,
    "end": lambda line, _: "That is all.",
}


def sentence(line, gfids):
    """The sentence of a line."""
    return SENTENCES[line.kind](line, gfids)
