"""The answer that the program gave, in words, and where the reading of the file disagrees with it."""
import re
from typing import NamedTuple

from .judging import ORDINARY, counted, listed
from .lines import messages, value_words

REFUSALS = {
    1: "fewer than 4 or more than 15 nodes",
    2: "m is 0 or more than 3",
    3: "u is less than m",
    4: "too few nodes: N must be more than 2m+u",
    5: "the sender is not a node",
    6: "the sender's value is reserved (more than 65000)",
    7: "the fault word marks a node that is not there",
    8: "the table is too short",
    10: "the marks are too short",
    20: "a line is 2 to 18 digits, 0-9 and A-F, in pairs",
    21: "a kind of line that is unknown, or not wanted at this place",
    22: "another number of bytes than lines of this kind have",
    23: "no route",
    24: "an earlier line gave the word of this route",
    25: "the 03 line does not say how many 02 lines there are",
    26: "the file ends without its 03 line, or in a line that lacks its LF",
}

CLASSES = {
    1: "at most m are faulty: all fault-free receivers decide the same value, the sender's if it is fault-free",
    2: "more than m, at most u are faulty: fault-free receivers hold one common value or the default, 0, "
       "and that value is the sender's if it is fault-free",
    3: "more than u are faulty: nothing is promised",
}

SENDER, RECEIVER, FAULTY = 0, 1, 2
NOT_REPORTED = 65535


class Slot(NamedTuple):
    """An 11 line."""
    node: int
    role: int
    word: int


class Summary(NamedTuple):
    """A 12 line."""
    faults: int
    fault_class: int
    ties: int
    messages: int


class Refused(NamedTuple):
    """A 1F line."""
    number: int
    line: int


FORMS = (
    (Slot, re.compile(rb"11(..)(0[0-2])(....)")),
    (Summary, re.compile(rb"12(..)(0[1-3])(....)(....)")),
    (Refused, re.compile(rb"1F(..)(....)")),
)
DIGITS = re.compile(rb"[0-9A-F]*")


def understood(line):
    """What a line of an answer says; None where it is no such line."""
    if DIGITS.fullmatch(line):
        for kind, form in FORMS:
            found = form.fullmatch(line)
            if found:
                return kind(*(int(field, 16) for field in found.groups()))
    return None


def whole(text):
    """Whether an answer has its last line: a summary, or one line of a refusal."""
    lines = text.split(b"\n")
    return lines.pop() == b"" and bool(lines) and (lines[-1][:2] == b"12" or len(lines) == 1 and lines[0][:2] == b"1F")


class Answer:
    """A whole answer of the program, beside the reading of the file that it answers."""

    def __init__(self, text, reading):
        self.reading = reading
        self.lines = [(line, understood(line)) for line in text.split(b"\n")[:-1]]
        says = [said for _, said in self.lines]
        self.slots = [said for said in says if isinstance(said, Slot)]
        self.summary = next((said for said in says if isinstance(said, Summary)), None)
        self.refused = next((said for said in says if isinstance(said, Refused)), None)
        self.disagreements = list(disagreements(self))


def slot_words(slot):
    if slot.role == SENDER:
        return f"node {slot.node}, the fault-free sender, sends {value_words(slot.word)}"
    if slot.role == RECEIVER:
        return f"node {slot.node}, a fault-free receiver, decides {value_words(slot.word)}"
    return f"node {slot.node} is faulty: not reported"


def summary_words(summary):
    ties = f"{counted(summary.ties, 'vote')} met a tie"
    return (f"{counted(summary.faults, 'faulty node')}, class {summary.fault_class} ({CLASSES[summary.fault_class]}); {ties}; "
            f"{counted(summary.messages, 'message')}")


def same_refusal(refusal, refused):
    """Whether the reading and the program refuse the same line with the same number."""
    return bool(refusal and refused) and (refusal.number, refusal.line) == refused


def refusal_words(refused, reading):
    """What was found and wanted is told from the reading where it agrees, and only there."""
    where = f" at line {refused.line}" if refused.line else ""
    words = reading.refusal.words if same_refusal(reading.refusal, refused) else REFUSALS.get(refused.number, "an unknown number")
    return f"refused with {refused.number}{where}: {words}"


def said_words(said, reading):
    if isinstance(said, Slot):
        return slot_words(said)
    if isinstance(said, Summary):
        return summary_words(said)
    return refusal_words(said, reading) if isinstance(said, Refused) else "this line of the answer is not understood"


def verdict_words(refusal):
    if not refusal:
        return "no line is refused"
    return f"{f'line {refusal.line}' if refusal.line else 'the file'} is refused with {refusal.number} ({refusal.words})"


def wanted_slot(s, node):
    """The role of a node, and its word where that is no decision."""
    if s.faulty(node):
        return FAULTY, NOT_REPORTED
    return (SENDER, s.value) if node == s.sender else (RECEIVER, None)


def slot_disagreements(s, slots):
    if [slot.node for slot in slots] != list(range(s.n)):
        yield f"{listed(range(s.n))} are the nodes of the file, and the answer has {listed([slot.node for slot in slots] or ['none'])}"
        return
    for slot in slots:
        role, word = wanted_slot(s, slot.node)
        fits = slot.word <= ORDINARY if word is None else slot.word == word
        if slot.role != role or not fits:
            yield f"node {slot.node} is {('the fault-free sender', 'a fault-free receiver', 'faulty')[role]} in the file" + (
                "" if word is None else f" and its word is {word}")


def summary_disagreements(s, summary):
    faults = sum(s.faulty(node) for node in range(s.n))
    fault_class = 1 if faults <= s.m else 2 if faults <= s.u else 3
    wanted = (faults, fault_class, messages(s))
    if (summary.faults, summary.fault_class, summary.messages) != wanted:
        yield f"the file has {counted(faults, 'faulty node')}, which is class {fault_class}, and {counted(wanted[2], 'message')}"


def disagreements(answer):
    """Each thing of the answer that the reading of the file does not bear out. Decisions and ties are the program's alone."""
    reading = answer.reading
    if any(said is None for _, said in answer.lines):
        yield "a line of the answer is not understood"
    elif reading.refusal or answer.refused:
        if not same_refusal(reading.refusal, answer.refused):
            yield f"by the reading of the file {verdict_words(reading.refusal)}"
    elif not answer.summary:
        yield "the answer has no summary"
    else:
        yield from slot_disagreements(reading.settings, answer.slots)
        yield from summary_disagreements(reading.settings, answer.summary)


def answer_words(answer):
    """The whole answer: a line of text for each of its lines, then each disagreement."""
    for line, said in answer.lines:
        shown = line.decode("ascii", "replace")
        yield f"  {shown if shown.isprintable() else '?':<16}{said_words(said, answer.reading)}"
    for words in answer.disagreements:
        yield f"  THE EXPLANATION DISAGREES WITH THIS ANSWER: {words}"
