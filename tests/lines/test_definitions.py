"""Compares answers to `rewrite6` lines in crates/ipexts with the definitions alone.

This is docs/definitions.md in Python, as literally as possible: it tries every list of headers and chooses the longest
with a property. Nothing is taken from the parsers.
"""

import random

from tools import lines_and_answers

RAW = (0, 43, 60)
EXTENSION = (0, 43, 44, 51, 60)
LAYERS = {0: "Ipv6HopByHopHeader", 43: "Ipv6RouteHeader", 44: "Ipv6FragHeader", 51: "IpAuthHeader",
          60: "Ipv6DestOptionsHeader"}


def is_header(n, b):
    """Returns whether the bytes b are a header with number n."""
    if n in RAW:
        return len(b) >= 8 and len(b) == 8 * (b[1] + 1)
    if n == 44:
        return len(b) == 8
    return n == 51 and len(b) >= 2 and b[1] >= 1 and len(b) == 4 * (b[1] + 2)


def chains(n, s):
    """Returns all chains at the start of s that begin with number n, as lists of numbers and bytes, shorter ones first."""
    found, chain, at = [[]], [], 0
    while True:
        if n == 0 and chain:
            return found
        headers = [s[at:end] for end in range(at, len(s) + 1) if is_header(n, s[at:end])]
        if not headers:
            return found
        assert len(headers) == 1
        chain = chain + [(n, headers[0])]
        found.append(chain)
        n, at = headers[0][0], at + len(headers[0])


def fits(numbers):
    """Returns whether there is at most one header of each number, except for one 60 on each side of the first 43."""
    first = numbers.index(43) if 43 in numbers else len(numbers)
    return (all(numbers.count(n) <= 1 for n in (0, 43, 44, 51))
            and numbers[:first].count(60) <= 1 and numbers[first + 1:].count(60) <= 1)


def fault(n, k, first, r):
    """Returns the tool's text of the error at number n, with the bytes r left at offset k, or None if there is none."""
    def short(required, layer):
        return f"fault len {required} of {len(r)} Slice {layer} at {k} in {LAYERS[n]}"
    if n == 0 and not first:
        return "fault HopByHopNotAtStart in Ipv6HopByHopHeader"
    if n in RAW:
        required = 8 if len(r) < 8 else 8 * (r[1] + 1)
        return short(required, "Ipv6ExtHeader") if len(r) < required else None
    if n == 44:
        return short(8, "Ipv6FragHeader") if len(r) < 8 else None
    if n == 51:
        if len(r) < 12:
            return short(12, "IpAuthHeader")
        if r[1] == 0:
            return "fault ZeroPayloadLen in IpAuthHeader"
        required = 4 * (r[1] + 2)
        return short(required, "IpAuthHeader") if len(r) < required else None
    return None


def cleared(n, b):
    """Returns the header with its reserved bits cleared."""
    b = list(b)
    if n == 44:
        b[1], b[3] = 0, b[3] & 0xf9
    if n == 51:
        b[2] = b[3] = 0
    return b


def answer(n, s):
    """Returns the lines of the answer to `rewrite6 n s`."""
    chain = max((c for c in chains(n, s) if fits([m for m, _ in c])), key=len)
    numbers = [m for m, _ in chain]
    k = sum(len(b) for _, b in chain)
    m, r = (chain[-1][1][0] if chain else n), s[k:]
    taken = m in EXTENSION and m != 0 and not fits(numbers + [m])
    written = "".join(f"{x:02x}" for h in chain for x in cleared(*h))
    end = None if taken else fault(m, k, not chain, r)
    return [f"next {m} rest {len(r)}", f"written {written or '-'}", end or "ok"]


def some_chain(source):
    """Returns a start number and bytes: headers that often repeat, sometimes truncated or with a wrong length."""
    numbers = [source.choice((0, 60, 43, 44, 51, 60, 44))]
    numbers += [source.choice((60, 43, 44, 51, 60, 0) if source.random() < 0.2 else (60, 43, 44, 51))
                for _ in range(source.randrange(7))]
    out = []
    for i, number in enumerate(numbers):
        last = source.choice((17, 6, 59, 0, 43, 44, 51, 60, 50))
        nxt = numbers[i + 1] if i + 1 < len(numbers) else last
        units = source.choice((0, 0, 0, 1, 2))
        length = {44: 8, 51: 12 + 4 * units}.get(number, 8 + 8 * units)
        field = {44: source.randrange(256), 51: units + 1}.get(number, units)
        if source.random() < 0.04:
            field = source.choice((0, 1, 255))
        out += [nxt, field] + [source.randrange(256) for _ in range(length - 2)]
    out += [source.randrange(256) for _ in range(source.choice((0, 0, 3, 8, 12)))]
    if source.random() < 0.3:
        out = out[:source.randrange(len(out) + 1)]
    return numbers[0], out


def asked():
    """Yields the number and the bytes of each line."""
    six = [60, 0, 1, 2, 3, 4, 5, 6, 43, 0, 1, 2, 3, 4, 5, 6, 44, 0, 1, 2, 3, 4, 5, 6, 51, 255, 1, 0xf7, 4, 5, 6, 7,
           60, 1, 9, 9, 4, 5, 6, 7, 8, 9, 10, 11, 17, 0, 1, 2, 3, 4, 5, 6]
    yield from ((0, six[:end]) for end in range(len(six) + 1))
    source = random.Random(8200)
    yield from (some_chain(source) for _ in range(200))


def test_answers_are_those_of_the_definitions():
    known = {line.decode("latin-1"): [it.decode() for it in answer] for line, answer in lines_and_answers()}
    for start, data in asked():
        line = f"rewrite6 {start} {bytes(data).hex() or '-'}"
        assert known[line] == answer(start, data), line
