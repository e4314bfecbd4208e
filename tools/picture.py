"""A transcript as a picture in SVG."""

import html

import transcript

MARGIN = 16
TOP = 64
CLIENT_LANE = 210
BRICK_LANE = 150
BOX = 156
# What a box has space for.
LETTERS = 22
TIE = 14
MOST_BRICKS = 32

# The height of the row of a line.
HEIGHTS = {"step": 34, "wait": 26}
HEIGHT = 26

COLOURS = ["#1f5fa8", "#7a3e9d", "#00716b", "#8a5a1b", "#b0367c", "#4c5d70"]

STYLE = """
text { font: 12px "DejaVu Sans", Verdana, sans-serif; fill: #222; }
.small { font-size: 11px; }
.number { font-size: 10px; fill: #888; text-anchor: end; }
.head { font-weight: bold; text-anchor: middle; }
.halo { paint-order: stroke; stroke: #fff; stroke-width: 4px; stroke-linejoin: round; }
.lane { stroke: #bbb; stroke-width: 1.5; }
.away { stroke: #c62828; stroke-width: 5; stroke-dasharray: 3 4; }
.request, .reply, .waiting, .unheard { fill: none; stroke-width: 1.6; }
.reply { stroke-dasharray: 5 3; }
.waiting { stroke-dasharray: 2 4; stroke-width: 2.2; }
.stop { stroke: #d98200; stroke-width: 5; }
.waits { fill: #a86400; }
.cross { stroke: #c62828; stroke-width: 2.6; fill: none; }
.fault, .refused { fill: #c62828; }
.treebar { fill: #d9efd9; stroke: #3c8d40; }
.treeword { fill: #1d5a20; font-weight: bold; }
.tie { fill: none; stroke: #3c8d40; stroke-width: 1.6; }
.point { fill: #3c8d40; }
.note { fill: #666; font-style: italic; }
.callbox { fill: #fff; stroke-width: 1.6; }
.answerbox { stroke-width: 1.6; }
.middle { text-anchor: middle; }
.end { text-anchor: end; }
"""


def escaped(text):
    """A text in SVG."""
    return html.escape(text, quote=True)


def cut(text, most):
    """A text that is cut where it is long."""
    return text if len(text) <= most else text[: most - 1] + "…"


def label(x, y, text, style, most=60):
    """A text in the picture."""
    return f'<text class="{style}" x="{x}" y="{y}">{escaped(cut(text, most))}</text>'


def stroke(points, style, colour=None):
    """A line through points."""
    path = "M" + " L".join(f"{x} {y}" for x, y in points)
    paint = f' stroke="{colour}"' if colour else ""
    return f'<path class="{style}" d="{path}"{paint}/>'


def arrowhead(x, y, to_right, colour):
    """The head of an arrow that ends here."""
    back = x - 8 if to_right else x + 8
    path = f"M{x} {y} L{back} {y - 4} L{back} {y + 4} Z"
    return f'<path class="arrowhead" d="{path}" fill="{colour}"/>'


def cross(x, y):
    """A cross."""
    path = f"M{x - 6} {y - 6} L{x + 6} {y + 6} M{x - 6} {y + 6} L{x + 6} {y - 6}"
    return f'<path class="cross" d="{path}"/>'


def box(x, y, style, colour, fill=""):
    """The box of a call or an answer, around the middle of a row."""
    paint = f' fill="{fill}"' if fill else ""
    return (
        f'<rect class="{style}" x="{x - BOX // 2}" y="{y - 10}" width="{BOX}" height="20" rx="4"'
        f' stroke="{colour}"{paint}/>'
    )


class Lanes:
    """Where the lanes of clients and bricks are."""

    def __init__(self, lines, drawn):
        seen = {line.client for line in drawn if "client" in line.fields}
        running = {line.client for line in running_before(lines, drawn[0].number)}
        self.clients = sorted(seen | running)
        self.bricks = list(range(bricks_of(lines)))
        self.weights = weights_of(lines, drawn[0].number)
        self.left = MARGIN + 12 + 7 * len(str(drawn[-1].number))
        begin = self.left + BOX // 2 + 2 * TIE
        self.of_client = {c: begin + at * CLIENT_LANE for at, c in enumerate(self.clients)}
        begin += max(len(self.clients), 1) * CLIENT_LANE - 20
        self.of_brick = {b: begin + at * BRICK_LANE for at, b in enumerate(self.bricks)}
        self.right = begin + max(len(self.bricks) - 1, 0) * BRICK_LANE + 70
        self.width = max(self.right + MARGIN, 640)

    def brick(self, number):
        """Where a brick is; one that the volume does not have is at the edge."""
        return self.of_brick.get(number, self.right)

    def colour(self, client):
        """The colour of a client."""
        return COLOURS[self.clients.index(client) % len(COLOURS)]


def volumes_before(lines, number):
    """The words of the volume lines up to a line."""
    return [x.words for x in lines if x.kind in ("volume", "remount") and x.number <= number]


def bricks_of(lines):
    """The most bricks that there are at a time."""
    found = [int(words[0]) for words in volumes_before(lines, len(lines))]
    return min(max(found, default=0), MOST_BRICKS)


def weights_of(lines, number):
    """The weights of the bricks at a line."""
    found = volumes_before(lines, number)
    return found[-1][1 : 1 + int(found[-1][0])] if found else []


def running_before(lines, number):
    """The call lines of the calls that run just before a line."""
    running = {}
    for line in lines[: number - 1]:
        if line.kind == "call":
            running[line.client] = line
        elif line.kind in ("answer", "die"):
            running.pop(line.client, None)
        elif line.kind == "remount":
            running.clear()
    return list(running.values())


def down_before(lines, number):
    """The bricks that are down just before a line."""
    down = set()
    for line in lines[: number - 1]:
        down = down_after(line, down)
    return down


def down_after(line, down):
    """The bricks that are down after a line."""
    if line.kind == "up":
        return down - {line.brick}
    if line.kind == "down" or (line.kind in ("step", "wait") and line.cut):
        return down | {line.brick}
    return down


class Picture:
    """Draws lines, each in its row."""

    def __init__(self, lines, drawn):
        self.lines, self.drawn = lines, drawn
        self.lanes = Lanes(lines, drawn)
        self.gfids = transcript.Gfids(lines)
        self.rows = {}
        at = TOP
        for line in self.shown():
            height = HEIGHTS.get(line.kind, HEIGHT)
            self.rows[line.number] = (at, height)
            at += height
        self.bottom = self.height = at

    def shown(self):
        """The lines that have a row each: all but those of the dump, which have one together."""
        return [line for line in self.drawn if line.kind not in transcript.DUMP]

    def middle(self, line):
        """The middle of a line's row."""
        top, height = self.rows[line.number]
        return top + height // 2

    # The rows.

    def draw_step(self, line):
        """A request and its reply."""
        top, _ = self.rows[line.number]
        begin, end = self.lanes.of_client[line.client], self.lanes.brick(line.brick)
        colour = self.lanes.colour(line.client)
        there, back = top + 13, top + 28
        if line.reply == "down":
            yield stroke([(begin, there + 7), (end - 10, there + 7)], "unheard", colour)
            yield cross(end, there + 7)
            yield label(end - 14, there + 3, line.word, "small halo end")
            yield label(end - 14, there + 18, "down", "small halo end fault")
            return
        yield stroke([(begin, there), (end, there)], "request", colour)
        yield arrowhead(end, there, True, colour)
        yield label(end - 14, there - 3, line.word, "small halo end")
        kind = "small halo end" if line.reply == "ok" else "small halo end fault"
        if line.cut:
            yield stroke([(end, back), (end - 70, back)], "reply", colour)
            yield cross(end - 70, back)
            yield label(end - 14, back - 3, f"{line.reply}, cut", kind)
        else:
            yield stroke([(end, back), (begin, back)], "reply", colour)
            yield arrowhead(begin, back, False, colour)
            yield label(end - 14, back - 3, line.reply.replace("refused:", "refused: "), kind)

    def draw_wait(self, line):
        """A lock that is not granted yet."""
        y = self.middle(line) + 4
        begin, end = self.lanes.of_client[line.client], self.lanes.brick(line.brick)
        yield stroke([(begin, y), (end - 12, y)], "waiting", self.lanes.colour(line.client))
        yield stroke([(end - 10, y - 8), (end - 10, y + 8)], "stop")
        text = f"lock: waits for client {line.holder}"
        yield label(end - 18, y - 4, text, "small halo end waits")
        if line.cut:
            yield cross(end, y)

    def draw_tree(self, line):
        """A change of the tree."""
        y, left = self.middle(line), self.lanes.left + 8
        width = self.lanes.right - left
        yield f'<rect class="treebar" x="{left}" y="{y - 10}" width="{width}" height="20"/>'
        text = f"tree: {line.word} {self.gfids.shorten(line.rest)}"
        yield label((left + self.lanes.right) // 2, y + 4, text, "treeword middle", width // 8)

    def draw_call(self, line):
        """A call begins."""
        x, y = self.lanes.of_client[line.client], self.middle(line)
        yield box(x, y, "callbox", self.lanes.colour(line.client))
        arguments = self.gfids.shorten(line.rest or "")
        yield label(x, y + 4, f"{line.call}: {line.verb} {arguments}", "small middle", LETTERS)

    def draw_answer(self, line):
        """A call answers, and what it answers holds at a line."""
        x, y = self.lanes.of_client[line.client], self.middle(line)
        colour = self.lanes.colour(line.client)
        if line.at is not None:
            yield from self.draw_tie(x, y, line)
        is_fault = line.at is None and line.words[0] in transcript.ERRORS
        yield box(x, y, "answerbox", colour, "#fdeaea" if is_fault else "#eaf5ea")
        where = "" if line.at is None else f"  (at {line.at})"
        text = cut(f"{line.call}: {self.gfids.shorten(line.rest)}", LETTERS - len(where)) + where
        yield label(x, y + 4, text, "small middle", 40)

    def draw_tie(self, x, y, line):
        """The line from an answer to the row at which it holds."""
        side = x - BOX // 2 - TIE
        if line.at in self.rows:
            held = self.lines[line.at - 1]
            at = self.middle(held)
            end = x - BOX // 2 if held.kind == "call" else x
            yield stroke([(x - BOX // 2, y), (side, y), (side, at), (end, at)], "tie")
            yield f'<circle class="point" cx="{end}" cy="{at}" r="4.5"/>'
        else:
            yield stroke([(x - BOX // 2, y), (side, y), (side, TOP - 6)], "tie")

    def draw_brick_event(self, line):
        """A brick goes down, comes back, or is changed from outside."""
        x, y = self.lanes.brick(line.brick), self.middle(line)
        if line.kind == "down":
            yield cross(x, y)
        words = {"down": "goes down", "up": "is up again", "poke": "is changed"}[line.kind]
        style = "small halo fault" if line.kind == "down" else "small halo"
        yield label(x + 12, y + 4, words, style)

    def draw_die(self, line):
        """A client dies."""
        x, y = self.lanes.of_client[line.client], self.middle(line)
        yield cross(x, y)
        yield label(x + 12, y + 4, "dies", "small halo fault")

    def draw_note(self, line):
        """What is no event of a client or a brick."""
        text = {
            "refused": "refused: line {0.line} of the schedule ({0.word})",
            "malformed": "malformed: line {0.line} of the schedule",
            "limit": "limit: the run has as many steps as it may have",
        }.get(line.kind, "{0.text}").format(line)
        is_end = line.kind in ("refused", "malformed", "limit")
        style = "small halo refused" if is_end else "small halo note"
        x, y = self.lanes.left + 12, self.middle(line) + 4
        yield label(x, y, self.gfids.shorten(text), style, 100)

    def draw_row(self, line):
        """A row, with its number and the line itself for the mouse."""
        top, height = self.rows[line.number]
        special = {
            "step": self.draw_step,
            "wait": self.draw_wait,
            "tree": self.draw_tree,
            "call": self.draw_call,
            "answer": self.draw_answer,
            "down": self.draw_brick_event,
            "up": self.draw_brick_event,
            "poke": self.draw_brick_event,
            "die": self.draw_die,
        }
        yield f'<g class="row {line.kind}" id="line-{line.number}">'
        yield f"<title>{line.number}: {escaped(line.text)}</title>"
        size = f'width="{self.lanes.width}" height="{height}"'
        yield f'<rect x="0" y="{top}" {size} fill-opacity="0"/>'
        yield label(self.lanes.left, top + height // 2 + 4, str(line.number), "number")
        yield from special.get(line.kind, self.draw_note)(line)
        yield "</g>"

    # What stands behind and around the rows.

    def draw_heads(self, y):
        """The names of the lanes."""
        for client, x in self.lanes.of_client.items():
            yield label(x, y, f"client {client}", "head")
        for brick, x in self.lanes.of_brick.items():
            yield label(x, y, f"brick {brick}", "head")
            if y < TOP and brick < len(self.lanes.weights):
                yield label(x, y + 15, f"weight {self.lanes.weights[brick]}", "small middle note")

    def draw_lanes(self):
        """The lanes, with the times at which a client has a call and a brick is down."""
        for x in self.lanes.of_brick.values():
            yield stroke([(x, TOP - 8), (x, self.bottom)], "lane")
        for x in self.lanes.of_client.values():
            yield stroke([(x, TOP - 8), (x, self.bottom)], "lane")
        yield from self.draw_calls()
        yield from self.draw_downs()

    def draw_calls(self):
        """Where calls run, from their line to their answer."""
        begun = {line.client: TOP - 8 for line in running_before(self.lines, self.drawn[0].number)}
        for line in self.shown():
            if line.kind == "call":
                begun[line.client] = self.middle(line)
            elif line.kind in ("answer", "die") and line.client in begun:
                yield self.running(line.client, begun.pop(line.client), self.middle(line))
            elif line.kind == "remount":
                for client in list(begun):
                    yield self.running(client, begun.pop(client), self.middle(line))
        for client, top in begun.items():
            yield self.running(client, top, self.bottom)

    def running(self, client, top, bottom):
        """The bar of a call that runs."""
        x, colour = self.lanes.of_client[client], self.lanes.colour(client)
        return (
            f'<rect class="running" x="{x - 4}" y="{top}" width="8" height="{bottom - top}"'
            f' fill="{colour}" fill-opacity="0.3"/>'
        )

    def draw_downs(self):
        """Where bricks are down."""
        down = down_before(self.lines, self.drawn[0].number)
        since = {brick: TOP - 8 for brick in down}
        for line in self.shown():
            after = down_after(line, down)
            for brick in after - down:
                since[brick] = self.middle(line)
            for brick in down - after:
                x = self.lanes.brick(brick)
                yield stroke([(x, since.pop(brick)), (x, self.middle(line))], "away")
            down = after
        for brick, top in since.items():
            x = self.lanes.brick(brick)
            yield stroke([(x, top), (x, self.bottom)], "away")

    def draw_foot(self):
        """What is in the dump, and the gfids that were shortened."""
        y = self.bottom + 40
        dump = [line.kind for line in self.drawn if line.kind in transcript.DUMP]
        if dump:
            kinds = ("brick", "dir", "slot", "file")
            counts = ", ".join(f"{kind} {dump.count(kind)}" for kind in kinds)
            text = f"then what the bricks contain, in lines: {counts}"
            yield label(self.lanes.left + 12, y, text, "small note", 100)
            y += 18
        used = {gfid for line in self.drawn for gfid in line.text.split(" ")}
        for name, gfid in self.gfids.legend():
            if gfid in used:
                yield label(self.lanes.left + 12, y, f"{name} = {gfid}", "small")
                y += 16
        self.height = y

    def draw(self):
        """The whole picture."""
        parts = [*self.draw_heads(28), *self.draw_lanes()]
        for line in sorted(self.shown(), key=lambda line: line.kind == "answer"):
            parts.extend(self.draw_row(line))
        parts.extend([*self.draw_heads(self.bottom + 18), *self.draw_foot()])
        size = f'width="{self.lanes.width}" height="{self.height}"'
        box_of = f'viewBox="0 0 {self.lanes.width} {self.height}"'
        return "\n".join(
            [
                f'<svg xmlns="http://www.w3.org/2000/svg" {size} {box_of}>',
                f"<style>{STYLE}</style>",
                '<rect class="paper" width="100%" height="100%" fill="#fff"/>',
                *parts,
                "</svg>\n",
            ]
        )


def picture(lines, drawn):
    """The picture of these lines of a transcript."""
    return Picture(lines, drawn).draw()
