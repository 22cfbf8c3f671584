"""The bytes of a file cut into lines. Of a line only its beginning is kept, however long it is: no good line has more than 18 digits."""
import re
from typing import NamedTuple, Optional

LONGEST = 18
NO_DIGIT = re.compile(rb"[^0-9A-F]")


class Line(NamedTuple):
    """A line without its LF."""
    start: bytes                # its first bytes, all of them if it is no longer than a good line may be
    length: int
    stray: Optional[tuple]      # the first byte that is no digit: its place, counted from 1, and the byte

    def shown(self):
        """The line for a reader, cut to the width of a good one."""
        text = "".join(chr(b) if 32 <= b < 127 else "?" for b in self.start[:LONGEST])
        return text if self.length <= LONGEST else text[:LONGEST - 2] + ".."


EMPTY = Line(b"", 0, None)


def longer(line, piece):
    """The line with a piece more."""
    stray = line.stray
    if stray is None:
        found = NO_DIGIT.search(piece)
        stray = found and (line.length + found.start() + 1, piece[found.start()])
    room = max(0, LONGEST + 1 - len(line.start))
    return Line(line.start + piece[:room], line.length + len(piece), stray)


class Cutter:
    """Takes the bytes of a file as they come."""

    def __init__(self):
        self.begun = EMPTY      # the line that has no LF yet

    def lines(self, chunk):
        """Each line that this chunk ends."""
        *ended, rest = chunk.split(b"\n")
        for piece in ended:
            line, self.begun = longer(self.begun, piece), EMPTY
            yield line
        self.begun = longer(self.begun, rest)
