"""tools/explain against the sentences beside tools/tests/transcripts."""

import difflib
import pathlib

import program
import sentences
import transcript

SUBJECT = "explain"
FOLDER = pathlib.Path(__file__).with_name("transcripts")


def told(path):
    """The sentences of a transcript."""
    lines = transcript.read(path.read_bytes())
    gfids = transcript.Gfids(lines)
    return "".join(f"{line.number} {sentences.sentence(line, gfids)}\n" for line in lines)


def sentences_of(path):
    """Where the sentences of a transcript stand."""
    return path.with_suffix(".sentences")


def transcripts():
    """The transcripts whose sentences are compared."""
    return sorted(FOLDER.glob("*.transcript"))


def complaints(path):
    """How the sentences of a transcript differ from those that are written down."""
    file = sentences_of(path)
    wanted = file.read_text(encoding="utf-8") if file.is_file() else ""
    made = told(path)
    found = difflib.unified_diff(wanted.splitlines(), made.splitlines(), "wanted", "told", n=0)
    return [line.rstrip("\n") for line in found]


def complaints_of_gfids(path):
    """Gfids that a sentence shows in full, where their short name was told before."""
    lines = transcript.read(path.read_bytes())
    gfids = transcript.Gfids(lines)
    for line in lines:
        sentence = sentences.sentence(line, gfids)
        for name, gfid in gfids.legend():
            if gfid in sentence and f"{name} is {gfid}" not in sentence:
                yield f"line {line.number} shows {gfid}, which is {name}: {sentence}"


def rewrite():
    """Writes down what is told of each transcript."""
    for path in transcripts():
        sentences_of(path).write_text(told(path), encoding="utf-8")


def cases(_built, _read):
    """A case for each transcript."""
    for path in transcripts():
        yield path.stem, complaints(path)
    for path in sorted((program.TOP / "examples").glob("*.transcript")):
        yield f"the gfids of {path.stem}", complaints_of_gfids(path)
