"""The answer to a file in one line."""
from .answers import RECEIVER, SENDER, refusal_words


def sender_words(answer, settings):
    sent = next((slot for slot in answer.slots if slot.role == SENDER), None)
    return f"sender {sent.node} sends {sent.word}" if sent else f"sender {settings.sender} is faulty"


def row_words(answer):
    s, summary = answer.reading.settings, answer.summary
    decided = " ".join(f"{slot.node}:{slot.word}" for slot in answer.slots if slot.role == RECEIVER)
    return (f"N={s.n:<2} m={s.m} u={s.u:<2} f={summary.faults:<2} class={summary.fault_class}  {sender_words(answer, s)}; "
            f"decided {decided or 'by nobody'}")


def table_words(answer):
    if answer.disagreements:
        return f"THE EXPLANATION DISAGREES WITH THE ANSWER: {answer.disagreements[0]}"
    return refusal_words(answer.refused, answer.reading) if answer.refused else row_words(answer)
