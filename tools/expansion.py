"""A schedule with comments, counts and runs, written as plain lines."""

import re
import subprocess

import schedule
import transcript

COMMENT = re.compile("(^ *|  +)#.*| +$")
COUNTED = re.compile("(step [^ ]+) x ([^ ]+)")
RUN = re.compile("run ([^ ]+)")

SECONDS = 120
FIRST_STEPS = 64


class NoSchedule(Exception):
    """A text is no schedule; the message names the line and says why."""


class NoAnswer(Exception):
    """The program cannot be asked; the message says why."""


class Asked:
    """The program, which is found once it is asked."""

    def __init__(self, find):
        self.find = find
        self.found = None

    def transcript_of(self, lines):
        """The lines of the transcript of a schedule, without what the bricks contain in the end."""
        self.found = self.found or self.find()
        content = "".join(f"{line}\n" for line in lines).encode("ascii")
        try:
            ran = subprocess.run(
                [self.found, "replay"],
                input=content,
                capture_output=True,
                timeout=SECONDS,
                check=False,
            )
        except (OSError, subprocess.TimeoutExpired) as why:
            raise NoAnswer(f"the program cannot be run: {why}") from None
        try:
            written = transcript.read(ran.stdout)
        except transcript.NoTranscript as why:
            raise NoAnswer(f"the program wrote no transcript: {why}") from None
        if ran.returncode != 0 and written[-1].kind != "limit":
            raise NoAnswer(f"the program ended with status {ran.returncode}: {written[-1].text}")
        return [line for line in written if line.kind not in transcript.DUMP]


def open_call(lines, client):
    """The number of the call of a client that runs after these lines, or None."""
    running = None
    for line in lines:
        if line.kind == "remount":
            running = None
        elif line.fields.get("client") == client:
            if line.kind == "call":
                running = line.call
            elif line.kind in ("answer", "die"):
                running = None
    return running


def steps_to_answer(lines, call):
    """How many steps were taken until a call answered, or None where it did not."""
    taken = 0
    for line in lines:
        taken += line.kind in ("step", "wait")
        if line.kind == "answer" and line.call == call:
            return taken
    return None


class Expansion:
    """Writes lines anew, by the lines that the program reads and by asking it."""

    def __init__(self, grammar, asked):
        self.grammar = grammar
        self.asked = asked
        self.plain = []
        self.size = 0

    def lines_of(self, content):
        """The plain lines of a schedule."""
        for number, text in enumerate(content.decode("latin-1").split("\n"), start=1):
            line = COMMENT.sub("", text)
            try:
                if line:
                    self.add_line(line)
            except schedule.Malformed as why:
                raise NoSchedule(f"line {number}: `{schedule.shown(text)}`: {why}") from None
        if not self.plain:
            raise NoSchedule("line 1: there is no line, and the first has to be a `volume` line")
        return self.plain

    def add_line(self, line):
        """Adds what a line stands for."""
        counted, run = COUNTED.fullmatch(line), RUN.fullmatch(line)
        if counted:
            times = schedule.number(counted[2], "count of steps")
            self.add(counted[1], times)
        elif run:
            step = f"step {run[1]}"
            self.grammar.check(step, is_first=not self.plain)
            self.add(step, self.steps_of_run(int(run[1]), step))
        else:
            self.add(line, 1)

    def add(self, line, times):
        """Adds a plain line so many times."""
        self.grammar.check(line, is_first=not self.plain)
        if len(line) >= schedule.LONGEST_LINE:
            raise schedule.Malformed(schedule.TOO_LONG)
        self.size += times * (len(line) + 1)
        if self.size > schedule.LONGEST_INPUT:
            most = f"{schedule.LONGEST_INPUT:,}"
            raise schedule.Malformed(f"the plain schedule would have more than {most} bytes")
        self.plain.extend([line] * times)

    def steps_of_run(self, client, step):
        """How many steps a client's call takes until it has answered."""
        before = self.asked.transcript_of(self.plain)
        call = open_call(before, client)
        if call is None:
            if any(line.kind == "call" and line.client == client for line in before):
                return 0
            raise schedule.Malformed(f"client {client} has made no call")
        steps = FIRST_STEPS
        while True:
            written = self.asked.transcript_of(self.plain + steps * [step])
            after = written[len(before) :]
            taken = steps_to_answer(after, call)
            if taken is not None:
                return taken
            self.check_goes_on(after[-1], client, steps)
            steps *= 4

    def check_goes_on(self, last, client, steps):
        """A call that waits while nobody else steps waits for ever, and a run has its limits."""
        if last.kind == "wait":
            raise schedule.Malformed(
                f"client {client} waits for a lock of client {last.holder}, "
                "which takes no step meanwhile"
            )
        if last.kind == "limit" or steps * 8 > schedule.LONGEST_INPUT // 4:
            raise schedule.Malformed(f"client {client} does not answer within the steps of a run")
