"""tools/draw: each picture is whole, and has for each line what stands for it, at its place."""

import collections
import re
import xml.etree.ElementTree

import picture
import program
import transcript
from tests import test_explanation

SUBJECT = "draw"
SVG = "{http://www.w3.org/2000/svg}"


def drawn(lines, chosen):
    """The picture of these lines, read."""
    return xml.etree.ElementTree.fromstring(picture.picture(lines, chosen))


def wanted_counts(chosen):
    """How often each class has to stand in the picture of these lines."""
    kinds = collections.Counter(line.kind for line in chosen)
    steps = [line for line in chosen if line.kind == "step"]
    down = sum(line.reply == "down" for line in steps)
    return {
        "request": len(steps) - down,
        "reply": len(steps) - down,
        "unheard": down,
        "waiting": kinds["wait"],
        "stop": kinds["wait"],
        "treebar": kinds["tree"],
        "callbox": kinds["call"],
        "answerbox": kinds["answer"],
        "tie": sum(line.kind == "answer" and line.at is not None for line in chosen),
        "row": sum(line.kind not in transcript.DUMP for line in chosen),
    }


def classes(element):
    """The classes of an element."""
    return element.get("class", "").split()


def middle_of_row(root, number):
    """The middle of the row of a line, as the picture has it."""
    row = root.find(f".//{SVG}g[@id='line-{number}']/{SVG}rect")
    return int(row.get("y")) + int(row.get("height")) // 2


def complaints_of_ties(root, chosen):
    """Answers that are not tied to the row of the line at which they hold."""
    shown = {line.number for line in chosen}
    for line in chosen:
        if line.kind != "answer" or line.at is None:
            continue
        tie = root.find(f".//{SVG}g[@id='line-{line.number}']/{SVG}path[@class='tie']")
        points = [tuple(map(int, point)) for point in re.findall(r"(\d+) (\d+)", tie.get("d"))]
        if points[0][1] != middle_of_row(root, line.number):
            yield f"the tie of line {line.number} does not begin at its row"
        if line.at in shown and points[-1][1] != middle_of_row(root, line.at):
            yield f"the tie of line {line.number} does not end at the row of line {line.at}"


def complaints_of_texts(root, lines):
    """Gfids that are not shortened, and lanes that are not named."""
    texts = [element.text or "" for element in root.iter(f"{SVG}text")]
    for text in texts:
        is_legend = re.fullmatch(f"[A-Z0-9]+ = {transcript.GFID}", text)
        if re.search(transcript.GFID, text) and not is_legend:
            yield f"a gfid is not shortened: {text}"
    for line in lines:
        if line.kind == "step":
            for name in (f"client {line.client}", f"brick {line.brick}"):
                if name not in texts:
                    yield f"no lane is named {name}"
                    return


def complaints(lines, chosen):
    """What is wrong with a picture."""
    root = drawn(lines, chosen)
    found = collections.Counter(name for element in root.iter() for name in classes(element))
    for name, count in wanted_counts(chosen).items():
        if found[name] != count:
            yield f"{found[name]} of class {name}, and not {count}"
    titles = [element.text for element in root.iter(f"{SVG}title")]
    wanted = {f"{x.number}: {x.text}" for x in chosen if x.kind not in transcript.DUMP}
    if len(titles) != len(wanted) or set(titles) != wanted:
        yield "the rows do not show their lines to the mouse"
    yield from complaints_of_ties(root, chosen)
    yield from complaints_of_texts(root, chosen)


def shown_in_readme():
    """The picture that README.md shows, and what is drawn of its transcript."""
    lines = transcript.read((test_explanation.FOLDER / "two-clients.transcript").read_bytes())
    return program.TOP / "docs" / "img" / "two-clients.svg", picture.picture(lines, lines)


def complaints_of_readme():
    """A picture in README.md that is not drawn so any more."""
    path, wanted = shown_in_readme()
    if not path.is_file() or path.read_text(encoding="utf-8") != wanted:
        yield "docs/img/two-clients.svg is not what is drawn: --rewrite writes it anew"


def rewrite():
    """Writes down the picture that README.md shows."""
    path, wanted = shown_in_readme()
    path.write_text(wanted, encoding="utf-8")


def cases(_built, _read):
    """A case for each transcript, and for parts of them."""
    examples = sorted((program.TOP / "examples").glob("*.transcript"))
    for path in [*test_explanation.transcripts(), *examples]:
        lines = transcript.read(path.read_bytes())
        yield path.stem, complaints(lines, lines)
        for first in range(0, len(lines), 7):
            part = lines[first : first + 12]
            yield f"{path.stem}, from line {first + 1} on", complaints(lines, part)
    yield "the picture in README.md", complaints_of_readme()
