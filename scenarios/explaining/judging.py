"""Why a line is refused: for each number of the rules what was found, and what is wanted. None where nothing is wrong."""

ORDINARY = 65000
KNOWN = (1, 2, 3)
NAMES = {9: "a tab", 13: "a CR", 32: "a blank"}


def listed(items):
    """The items as an English list."""
    words = [str(item) for item in items]
    return words[0] if len(words) == 1 else ", ".join(words[:-1]) + " and " + words[-1]


def counted(number, thing):
    return f"{number} {thing}" if number == 1 else f"{number} {thing}s"


def stray_words(line):
    """The byte that is no digit, and what is wanted in its place."""
    place, byte = line.stray
    if line.start.startswith(b"\xef\xbb\xbf"):
        return "the line begins with EF BB BF, a byte order mark; only 0-9 and A-F are taken"
    name = NAMES.get(byte) or (f"'{chr(byte)}'" if 32 < byte < 127 else f"{byte:02X}")
    wanted = "a line ends by LF alone" if byte == 13 else "only 0-9 and A-F are taken"
    return f"byte {place} is {name}; {wanted}"


def no_digits(line):
    """20."""
    if line.length == 0:
        return "the line is empty; 2 to 18 digits are wanted"
    if line.stray:
        return stray_words(line)
    if line.length > 18:
        return f"{line.length} digits; at most 18 are wanted"
    if line.length % 2:
        return f"{counted(line.length, 'digit')}; an even number is wanted, two for each byte"
    return None


def out_of_place(kind, number, closed):
    """21: a line of this kind with this number, where the line number closed is the 03 line (None: there was none yet)."""
    if closed:
        return f"line {closed} is the 03 line, and nothing may follow it"
    if kind not in KNOWN:
        return f"kind {kind:02X} is unknown; 01, 02 and 03 are wanted"
    if number == 1 and kind != 1:
        return f"the first line is of kind {kind:02X}; an 01 line is wanted there"
    if number > 1 and kind == 1:
        return "an 01 line is wanted as the first line only"
    return None


def wrong_length(frame):
    """22."""
    kind, bytes_here = frame[0], len(frame)
    if kind == 2 and bytes_here == 1:
        return "02 with a route of L numbers has 4+L bytes, this has 1 and no L"
    wanted = {1: 9, 2: 4 + frame[1] if bytes_here > 1 else 0, 3: 3}[kind]
    name = f"02 with L={frame[1]}" if kind == 2 else f"{kind:02X}"
    return None if bytes_here == wanted else f"{name} has {counted(wanted, 'byte')}, this has {bytes_here}"


def wrong_settings(s):
    """1 to 7, the lowest that applies, with its words."""
    beyond = [node for node in range(16) if node >= s.n and s.faults >> node & 1]
    reasons = (
        (1, not 4 <= s.n <= 15, f"N was read as {s.n} (the digits {s.n:02X}); 4 to 15 nodes are wanted"),
        (2, not 1 <= s.m <= 3, f"m was read as {s.m}; 1 to 3 is wanted"),
        (3, s.u < s.m, f"u was read as {s.u} and m as {s.m}; u must be at least m"),
        (4, s.n <= 2 * s.m + s.u, f"N was read as {s.n}, m as {s.m} and u as {s.u}; N must be more than 2m+u, which is {2 * s.m + s.u}"),
        (5, s.sender >= s.n, f"the sender was read as {s.sender}; the nodes are 0 to {s.n - 1}"),
        (6, s.value > ORDINARY, f"the sender's value was read as {s.value}; at most {ORDINARY} is wanted"),
        (7, bool(beyond), f"the fault word {s.faults:04X} marks {listed(beyond or [''])} as faulty; the nodes are 0 to {s.n - 1}"),
    )
    return next(((number, words) for number, applies, words in reasons if applies), None)


def no_route(s, route):
    """23: every rule of a route that this one breaks."""
    broken = []
    if not 1 <= len(route) <= s.m + 1:
        broken.append(f"L is {len(route)}, and with m={s.m} a route has 1 to {s.m + 1} numbers")
    beyond = sorted({node for node in route if node >= s.n})
    if beyond:
        broken.append(f"{listed(beyond)} {'is no node' if len(beyond) == 1 else 'are no nodes'}, they are 0 to {s.n - 1}")
    twice = sorted({node for node in route if route.count(node) > 1})
    if twice:
        broken.append(f"node {listed(twice)} stands more than once")
    if s.sender in route:
        broken.append(f"node {s.sender} is the sender")
    return f"({','.join(map(str, route))}) is no route: {'; '.join(broken)}" if broken else None


def given_before(route, earlier):
    """24: earlier is the number of the line that gave the route's cell, or None."""
    return earlier and f"the word of route ({','.join(map(str, route))}) was given by line {earlier}"


def wrong_count(said, given):
    """25."""
    if said == given:
        return None
    there = "there is 1 line" if given == 1 else f"there are {given} lines"
    return f"the 03 line says {said} (the digits {said:04X}), {there} of kind 02 (the digits {given:04X})"


def cut_short(lines, closed, begun):
    """26: the file had this many whole lines, the 03 line closed (or None), and a line begun without an LF."""
    if begun.length and closed:
        return f"{counted(begun.length, 'byte')} without an LF after the 03 line, line {closed}"
    if begun.length:
        return f"line {lines + 1}, the last, lacks its LF"
    if closed:
        return None
    return f"the file ends after line {lines} without an 03 line" if lines else "the file is empty"
