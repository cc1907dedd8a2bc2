"""Lists of fragments in the order in which they arrive: fixed ones, examples of each named difference, and random ones."""

import itertools
import struct

from packets import ADDRESSES, DESTINATION, HOP_BY_HOP, LOCAL, NUMBER, ROUTING, Fragment, chain, extension, whole_of, words_sum

VERSIONS = (4, 6)
# extension headers before the fragment header, in the order that RFC 8200, section 4.1, recommends
HEADERS = [(), (HOP_BY_HOP,), (DESTINATION,), (ROUTING,), (HOP_BY_HOP, DESTINATION), (HOP_BY_HOP, ROUTING), (DESTINATION, ROUTING),
           (HOP_BY_HOP, DESTINATION, ROUTING)]
OPTIONS = [b"", b"\1\1\1\1", b"\1" * 8, b"\1" * 40]
# how many packets of a flood are incomplete at once, and how many of them become whole at last
FLOOD, COMPLETED = 4095, 100
# after how many seconds a packet is given up, where times are compared
TIMEOUT = 2
# to words of a chosen key this prime is added: such keys collide if their words are reduced by it
PRIME = 4294967291


def pieces(version, data, sizes, identification=0):
    """The fragments of a payload, of these sizes in bytes and what is left. The headers of each differ from those of others."""
    ends = [*itertools.accumulate(sizes), len(data)]
    starts = [0, *ends[:-1]]
    return [Fragment(version, identification, start // 8, end < len(data) or i < len(sizes), data[start:end], hops=64 + i)
            for i, (start, end) in enumerate(zip(starts, ends))]


def marked(fragments, points):
    return [it._replace(ecn=point) for it, point in zip(fragments, points)]


def code_points(draw):
    """All code points of two and of three fragments, in each order of two and some orders of three."""
    for version, count in itertools.product(VERSIONS, (2, 3)):
        for points in itertools.product(range(4), repeat=count):
            fragments = marked(pieces(version, draw.randbytes(40), [8] * (count - 1)), points)
            for order in itertools.permutations(fragments) if count == 2 else [draw.sample(fragments, count) for _ in range(2)]:
                yield f"code points {points}", order


def orders(draw):
    """Fragments of one packet in any order, all of them, all but one, and one of them twice."""
    for version, count in itertools.product(VERSIONS, range(2, 6)):
        fragments = pieces(version, draw.randbytes(16 * count - 3), [16] * (count - 1))
        for order in itertools.permutations(fragments):
            yield "an order", order
            yield "a gap", order[1:]
            yield "a repetition", [*order[:-1], draw.choice(order[:-1]), order[-1]]


def headers(draw):
    """The headers of the first fragment are those of the packet, whatever the others have, and in any order."""
    choices = [(4, "options", OPTIONS), (6, "headers", HEADERS)]
    for version, field, values in choices:
        for first, last in itertools.product(values, repeat=2):
            made = pieces(version, draw.randbytes(30), [16])
            made = [made[0]._replace(**{field: first}), made[1]._replace(**{field: last})]
            yield f"headers {first} and {last}", made
            yield f"headers {last} after {first}", made[::-1]


def extensions_in_payloads(draw):
    """A payload of IPv6 that starts with an extension header. The number in a later fragment doesn't matter."""
    for count, before in itertools.product((1, 2), HEADERS[:2]):
        data = chain((DESTINATION,) * count, NUMBER, 0) + draw.randbytes(20)
        made = [it._replace(number=DESTINATION, headers=before) for it in pieces(6, data, [8 * count + 8])]
        yield "options in a payload", made
        yield "another number in a later fragment", [made[1]._replace(number=17), made[0]]
        # the first fragment must have all headers (RFC 8200, section 4.5); this one has an option to skip (RFC 4727, section 3.5)
        short, long = (pieces(6, bytes([NUMBER, 1, 0x1E, 12]) + bytes(12) + draw.randbytes(20), [it]) for it in (8, 24))
        yield "a first fragment of half a header", [it._replace(number=DESTINATION, headers=before) for it in short]
        yield "a first fragment of a header", [it._replace(number=DESTINATION, headers=before) for it in long]


def numbers(draw):
    """Identifications, such as those of 32,768 and more, and checksums of 0, which is the complement of 0xffff (RFC 1624, section 3)."""
    for identification in (1, 0x7FFF, 0x8000, 0x8001, 0xFFFE, 0xFFFF):
        yield "an identification", pieces(4, draw.randbytes(20), [16], identification)
    for identification in (1, 0x7FFF, 0x8000, 0xFFFF, 0x10000, 0x7FFFFFFF, 0x80000000, 0xFFFFFFFF):
        yield "an identification", pieces(6, draw.randbytes(20), [16], identification)
    for options, wanted in itertools.product(OPTIONS, (0xFFFF, 1)):
        made = [it._replace(options=options) for it in pieces(4, draw.randbytes(20), [16])]
        # the sum of the whole packet's header without its identification and its checksum
        head = whole_of(made[0], 0, bytes(20))[:20 + len(options)]
        others = words_sum(head[:4] + head[6:10] + head[12:])
        identification = (wanted - others) % 0xFFFF
        yield f"a checksum of {0xFFFF - wanted}", [it._replace(identification=identification) for it in made]


def long_packets(draw):
    """The longest packets, and ones that are a byte too long by the payload or by the headers of the first fragment."""
    data = draw.randbytes(65536)
    for version, length in ((4, 65535 - 20), (6, 65535)):
        made = pieces(version, data[:length], [1480] * (length // 1480))
        yield "the longest packet", made
        yield "the longest packet", made[::-1]
        yield "the longest packet", draw.sample(made, len(made))
        yield "a packet in two halves", pieces(version, data[:length], [32760])
    yield "a payload that is too long", pieces(6, data, [32768])
    yield "a payload that is too long", pieces(6, data, [32768])[::-1]


def in_contexts(fragments, numbers_of_contexts):
    return [it._replace(context=one) for it, one in zip(fragments, numbers_of_contexts)]


def contexts(draw):
    """Packets with one key on two interfaces, in any order, and one whose fragments arrive on both."""
    local, others = ([it._replace(addresses=LOCAL, context=one) for it in pieces(6, draw.randbytes(20), [16])] for one in (0, 1))
    for order in itertools.permutations([*local, *others]):
        yield "two interfaces", order
    for order in itertools.permutations(local):
        yield "an interface for each fragment", in_contexts(order, (0, 1))
    for version in VERSIONS:
        yield "another interface", in_contexts(pieces(version, draw.randbytes(20), [16]), (1, 1))


def chosen_keys(to):
    """Keys from 2001:db8::1 and their like: to each of three words the prime is added or not."""
    for identification, added in itertools.product(range(1, FLOOD // 8 + 2), itertools.product((0, PRIME), repeat=3)):
        words = (0x20010DB8, added[0], added[1], 1 + added[2])
        yield struct.pack(">4I", *words) + to, identification


def keys(draw, version, kind):
    """Addresses and identifications of different packets."""
    to = ADDRESSES[version][len(ADDRESSES[version]) // 2:]
    start = bytes([10]) if version == 4 else bytes.fromhex("20010db8ff")
    if kind == "chosen":
        found = chosen_keys(to)
    elif kind == "random":
        found = ((start + draw.randbytes(len(to) - len(start)) + to, draw.randrange(1, 1 << 16)) for _ in range(FLOOD))
    else:
        found = ((start + bytes(len(to) - len(start)) + to, it) for it in range(1, FLOOD + 1))
    return list(dict.fromkeys(itertools.islice(found, FLOOD)))


def floods(draw):
    """A good packet among incomplete ones with other keys, of which some become whole at last."""
    for version, kind in [*itertools.product(VERSIONS, ("in order", "random")), (6, "chosen")]:
        flood = [[it._replace(addresses=addresses) for it in pieces(version, draw.randbytes(20), [16], identification)]
                 for addresses, identification in keys(draw, version, kind)]
        good, first = pieces(version, draw.randbytes(40), [16, 16]), [it for it, _ in flood]
        late = draw.sample([it for _, it in flood], COMPLETED)
        yield f"a flood of keys {kind}", [good[0], *first[:FLOOD // 3], good[2], *first[FLOOD // 3:], good[1], *late]


def times(version, draw):
    """Fragments of packets with the times when they arrive, in seconds, and whether the last three make a packet whole. Its time
    begins with the fragment that arrives first (RFC 1122, section 3.3.2; RFC 8200, section 4.5)."""
    first, middle, last = pieces(version, draw.randbytes(40), [16, 16])
    return [([(0, first), (0, middle), (0.5, last)], True),
            ([(0, last), (0.5, middle), (0.5, first)], True),
            ([(0, first), (0, middle), (3, last)], False),
            ([(0, last), (0, middle), (3, first)], False),
            ([(0, first), (1.5, middle), (3, last)], False),
            ([(0, first), (3, middle), (3, last), (3.2, first)], True)]


def fixed(draw):
    """All lists that Linux and the library take alike, but for named differences."""
    for group in (numbers, code_points, orders, headers, extensions_in_payloads, long_packets, contexts, floods):
        yield from group(draw)


def rewrites(draw):
    """Fragments, a call of wolfaren.h with its arguments, and these fragments with the change: without headers of a number before
    the fragment header, or with destination options."""
    new = extension(DESTINATION, 0, 0)
    for headers in HEADERS:
        made = [it._replace(headers=headers) for it in pieces(6, draw.randbytes(40), [16, 16])]
        changes = [(("wolfaren_remove_headers", number), tuple(it for it in headers if it != number)) for number in headers]
        changes += [(("wolfaren_with_header", DESTINATION, new, len(new), index), (*headers[:index], DESTINATION, *headers[index:]))
                    for index in range(headers[:1] == (HOP_BY_HOP,), len(headers) + 1)]
        for call, after in changes:
            yield made, call, [it._replace(headers=after) for it in made]


def examples():
    """Examples of the named differences: lists of which Linux and the library make different packets."""
    for version in VERSIONS:
        first, middle, last = pieces(version, bytes(range(40)), [16, 16])
        yield "contained", [first, first._replace(data=bytes(16)), middle, last]
        yield "contained", [first, middle, first._replace(data=first.data + middle.data), last]
        yield "contained", [first, middle, middle._replace(offset=3, data=bytes(8)), last]
        yield "empty", pieces(version, bytes(range(16)), [16])
        yield "empty", [first, middle._replace(data=b""), middle, last]
        yield "forgotten", [last, first, first._replace(data=bytes(24)), first, middle, last]
        yield "forgotten", [first, last, middle._replace(offset=6), first, middle, last]
        yield "forgotten", [*marked([first, middle, last], (0, 1, 0)), first, middle, last]
        yield "repeated code points", [*marked([first, first, middle, last], (1, 3, 1, 1))]
        yield "repeated code points", [*marked([first, first, middle, last], (0, 1, 0, 0))]
        yield "interfaces", in_contexts([first, middle, last], (0, 1, 0))
    first, middle, last = pieces(4, bytes(range(40)), [16, 16])
    yield "trimmed", [first, middle._replace(data=middle.data + b"cut"), last]
    yield "late length", [first, middle, last._replace(offset=8190, data=bytes(8)), last]
    yield "upper-layer header", [it._replace(number=DESTINATION) for it in pieces(6, chain((DESTINATION,), NUMBER, 0) + bytes(20), [8])]
    first, last = pieces(6, bytes(65535), [32768])
    yield "late length", [first._replace(headers=(HOP_BY_HOP,)), last, last._replace(data=last.data[:-8]), first]


def cut(draw, length):
    """The sizes of some pieces of a payload, multiples of 8 bytes, after which at least a byte is left."""
    found, left = [], length
    while left > 8 and draw.random() < 0.8:
        found.append(8 * draw.randint(1, (left - 1) // 8))
        left -= found[-1]
    return found


def changed(draw, fragment):
    """A fragment that isn't one of the packet: moved, of another length or with other bytes, or with another flag."""
    fields = {"offset": draw.randrange(14), "more": draw.random() < 0.5, "data": draw.randbytes(draw.choice([0, 5, 8, 8, 16, 24, 32])),
              "ecn": draw.randrange(4)}
    return fragment._replace(**{it: fields[it] for it in draw.sample(sorted(fields), draw.randint(1, 3))})


def random_list(draw):
    """Fragments of one packet, and of other payloads: in order or not, lost, repeated, changed, and with code points."""
    version, data = draw.choice(VERSIONS), draw.randbytes(draw.choice([9, 24, 31, 64, 100]))
    points = draw.choice([(0,), (0,), (1, 2), (1, 2, 3), (0, 1, 2, 3)])
    found = [it._replace(ecn=draw.choice(points)) for it in pieces(version, data, cut(draw, len(data)))]
    whole = list(found)
    found = [it for it in found if draw.random() < 0.97]
    found += [it._replace(ecn=draw.choice(points)) for it in found if draw.random() < 0.2]
    found += [changed(draw, it) for it in found if draw.random() < draw.choice([0, 0.3])]
    if draw.random() < 0.7:
        draw.shuffle(found)
    found = found + draw.sample(whole, len(whole)) * (draw.random() < 0.3) or whole
    addresses, interfaces = draw.choice([b"", LOCAL] if version == 6 else [b""]), draw.choice([(0,), (0,), (0,), (0, 0, 1)])
    return [it._replace(addresses=addresses, context=draw.choice(interfaces)) for it in found]
