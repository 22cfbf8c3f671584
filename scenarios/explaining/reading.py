"""Reads a scenario file as the rules say, to its first refused line."""
from typing import NamedTuple, Optional

from . import judging
from .pieces import Cutter, Line


class Settings(NamedTuple):
    """An 01 line."""
    n: int
    m: int
    u: int
    sender: int
    value: int
    faults: int

    def faulty(self, node):
        return bool(self.faults >> node & 1)


class Told(NamedTuple):
    """An 02 line: a route and the word that its teller tells."""
    route: tuple
    word: int


class Count(NamedTuple):
    """An 03 line."""
    said: int


class Refusal(NamedTuple):
    number: int
    line: int           # 0 for 26
    words: str          # what was found, and what is wanted


class Read(NamedTuple):
    """A line and what it says: Settings, Told, Count or Refusal."""
    line: Line
    says: tuple


def word(frame, place):
    return int.from_bytes(frame[place:place + 2], "big")


class Reading:
    """A file being read. After its end: lines (those that were judged), settings, refusal (None: the file is accepted), unjudged."""

    def __init__(self):
        self.cutter = Cutter()
        self.lines = []
        self.settings: Optional[Settings] = None
        self.given = {}                 # route -> number of the line that gave it
        self.closed: Optional[int] = None
        self.refusal: Optional[Refusal] = None
        self.unjudged = 0               # lines after the refused one

    def feed(self, chunk):
        if self.refusal:
            self.unjudged += chunk.count(b"\n")
            return
        for line in self.cutter.lines(chunk):
            if self.refusal:
                self.unjudged += 1
            else:
                self.take(line)

    def take(self, line):
        """Judges a line and does what it says."""
        says = self.judged(line, len(self.lines) + 1)
        self.lines.append(Read(line, says))
        if isinstance(says, Refusal):
            self.refusal = says
        elif isinstance(says, Settings):
            self.settings = says
        elif isinstance(says, Told):
            self.given[says.route] = len(self.lines)
        else:
            self.closed = len(self.lines)

    def judged(self, line, number):
        """What the line with this number says. The order of the reasons is the rules': 20, 21, 22, 1 to 7, 23, 24, 25."""
        words = judging.no_digits(line)
        if words:
            return Refusal(20, number, words)
        frame = bytes.fromhex(line.start.decode("ascii"))
        words = judging.out_of_place(frame[0], number, self.closed)
        if words:
            return Refusal(21, number, words)
        words = judging.wrong_length(frame)
        if words:
            return Refusal(22, number, words)
        return {1: self.opening, 2: self.telling, 3: self.closing}[frame[0]](frame, number)

    def opening(self, frame, number):
        settings = Settings(*frame[1:5], word(frame, 5), word(frame, 7))
        wrong = judging.wrong_settings(settings)
        return Refusal(wrong[0], number, wrong[1]) if wrong else settings

    def telling(self, frame, number):
        route = tuple(frame[2:-2])
        words = judging.no_route(self.settings, route)
        if words:
            return Refusal(23, number, words)
        words = judging.given_before(route, self.given.get(route))
        return Refusal(24, number, words) if words else Told(route, word(frame, len(frame) - 2))

    def closing(self, frame, number):
        words = judging.wrong_count(word(frame, 1), len(self.given))
        return Refusal(25, number, words) if words else Count(word(frame, 1))

    def end(self):
        """The input has ended."""
        if not self.refusal:
            words = judging.cut_short(len(self.lines), self.closed, self.cutter.begun)
            self.refusal = Refusal(26, 0, words) if words else None
