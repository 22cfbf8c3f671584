"""Hands the bytes of a file to the program and, as they come, to the reading of the same file."""
import os
import re
import subprocess

from . import answers

CHUNK = 1 << 16
CAUSE = re.compile(r'message: "([^"]*)"')


class NoAnswer(Exception):
    """The file has no whole answer; the text says why."""


def bytes_of(name):
    """The bytes of a file as they come; - is standard input."""
    try:
        file = 0 if name == "-" else os.open(name, os.O_RDONLY)
        try:
            while chunk := os.read(file, CHUNK):
                yield chunk
        finally:
            if name != "-":
                os.close(file)
    except OSError as error:
        raise NoAnswer(f"it cannot be read: {error.strerror}") from error


def started(command):
    try:
        return subprocess.Popen(command, bufsize=0, stdin=subprocess.PIPE, stdout=subprocess.PIPE, stderr=subprocess.PIPE)
    except OSError as error:
        raise NoAnswer(f"the program cannot be started: {error.strerror}") from error


def hand_over(program, chunk):
    """Writes the whole chunk; a program that was ended reads no more, which its answer shows."""
    rest = memoryview(chunk)
    try:
        while rest:
            rest = rest[program.stdin.write(rest):]
    except BrokenPipeError:
        pass


def why_in_words(complaint, status):
    """Why a program that complained with this line and ended with this status gave no whole answer."""
    found = CAUSE.search(complaint)
    cause = f": {found[1]}" if found else ""
    if complaint.startswith("Error: Reading("):
        return f"the input was not read to its end{cause}"
    if complaint.startswith("Error: Writing("):
        return f"the answer was not written whole{cause}"
    return complaint or f"the program gave no whole answer and ended with status {status}"


def played(command, name, reading):
    """The whole answer to a file."""
    with started(command) as program:
        try:
            for chunk in bytes_of(name):
                reading.feed(chunk)
                hand_over(program, chunk)
            text, said = program.communicate()
        except BaseException:
            # an input that was not read to its end is not answered
            program.kill()
            raise
    reading.end()
    if program.returncode or not answers.whole(text):
        raise NoAnswer(why_in_words(said.decode("utf-8", "replace").partition("\n")[0], program.returncode))
    return text
