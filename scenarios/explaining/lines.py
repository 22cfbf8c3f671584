"""The lines of a file in words, and which of their words count."""
from .judging import ORDINARY, counted, listed
from .reading import Count, Settings, Told


def value_words(word):
    if word > ORDINARY:
        return f"{word}, a reserved word, which counts as 0"
    return "0, the default" if word == 0 else str(word)


def settings_words(s):
    faulty = [node for node in range(s.n) if s.faulty(node)]
    who = f"faulty: {'node' if len(faulty) == 1 else 'nodes'} {listed(faulty)}" if faulty else "no node is faulty"
    sent = f"faulty, so its value, {s.value}, is told to nobody" if s.faulty(s.sender) else f"sends {value_words(s.value)}"
    return f"{s.n} nodes, m={s.m}, u={s.u}; the sender, node {s.sender}, {'is ' if s.faulty(s.sender) else ''}{sent}; {who}"


def told_words(told):
    """The teller is the number before the last; it tells what the number before it told it, and so on back to the sender."""
    *before, receiver = told.route
    if not before:
        return f"the sender tells node {receiver}: {value_words(told.word)}"
    teller = before.pop()
    heard = ", who heard it from ".join([f"node {node}" for node in reversed(before)] + ["the sender"])
    return f"node {teller} tells node {receiver}, as heard from {heard}: {value_words(told.word)}"


def teller(s, route):
    return route[-2] if len(route) > 1 else s.sender


def unread_words(s, route):
    """Why the word of a route is never read, or that it counts for nothing."""
    node = teller(s, route)
    if not s.faulty(node):
        if len(route) == 1:
            return " (never read: the sender is fault-free and tells its value)"
        return f" (never read: node {node} is fault-free and passes on what it was told)"
    return f" (counts for no decision: node {route[-1]} is faulty)" if s.faulty(route[-1]) else ""


def line_words(says, settings):
    if isinstance(says, Settings):
        return settings_words(says)
    if isinstance(says, Told):
        return told_words(says) + unread_words(settings, says.route)
    if isinstance(says, Count):
        return f"the end: {counted(says.said, 'line')} of kind 02"
    return "this line is refused"


def lines_named(numbers):
    """Ascending line numbers, runs of them joined: lines 2, 4 to 6 and 9. Many runs are only counted: each line has its own words too."""
    runs = []
    for number in numbers:
        if runs and runs[-1][1] == number - 1:
            runs[-1][1] = number
        else:
            runs.append([number, number])
    if len(runs) > 12:
        return f"{len(numbers)} lines, as said above"
    return ("line " if len(numbers) == 1 else "lines ") + listed(str(a) if a == b else f"{a} to {b}" for a, b in runs)


def routes_by_teller(s):
    """How many routes have a faulty teller, and how many of those a faulty receiver too.

    In each round every node but the sender is as often the teller as any other, and every two of them as often teller and receiver.
    """
    relays = sum(s.faulty(node) for node in range(s.n) if node != s.sender)
    told, idle = ((s.n - 1, relays) if s.faulty(s.sender) else (0, 0))
    for_one_teller = 1
    for numbers in range(2, s.m + 2):
        for_one_teller *= s.n - numbers
        told += relays * for_one_teller
        idle += relays * (relays - 1) * for_one_teller // (s.n - 2)
    return told, idle


def messages(s):
    """M."""
    total, routes = 0, 1
    for numbers in range(1, s.m + 2):
        routes *= s.n - numbers
        total += routes
    return total


def unread_lines(reading):
    s = reading.settings
    numbers = sorted(line for route, line in reading.given.items() if not s.faulty(teller(s, route)))
    if not numbers:
        return "every 02 line has a faulty teller" if reading.given else "there is no 02 line"
    return f"never read, since the teller is fault-free: {lines_named(numbers)}"


def missing_words(reading):
    """How many words of faulty tellers were not given."""
    s = reading.settings
    told, idle = routes_by_teller(s)
    given = [route for route in reading.given if s.faulty(teller(s, route))]
    missing = told - len(given)
    idle -= sum(s.faulty(route[-1]) for route in given)
    if not told:
        return "no faulty node tells anything"
    to_whom = "a faulty node" if idle == 1 else "faulty nodes"
    beside = f" ({idle} of these told to {to_whom}, which counts for no decision)" if idle else ""
    return f"faulty nodes tell {counted(told, 'word')}: {len(given)} given, {missing} not given and so read as 0{beside}"


def file_words(reading):
    """The whole file: a line of text for each of its lines, then what was not read."""
    for number, (line, says) in enumerate(reading.lines, 1):
        yield f"{number:>5}  {line.shown():<18}  {line_words(says, reading.settings)}"
    begun = reading.cutter.begun
    if reading.refusal:
        if reading.unjudged:
            yield f"       {counted(reading.unjudged, 'line')} after it not judged"
        if begun.length and reading.refusal.number == 26:
            yield f"{len(reading.lines) + 1:>5}  {begun.shown():<18}  without an LF, so not judged"
    else:
        yield f"       {unread_lines(reading)}"
        yield f"       {missing_words(reading)}"
