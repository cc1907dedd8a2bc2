"""Converts what the page shows to the program's answers."""

import re

HEADERS = {"hop-by-hop": "hopopt", "routing": "route", "fragment": "frag", "authentication": "auth", "destination-options": "dstopts"}
NUMBERS = {"0": "hop-by-hop", "43": "routing", "44": "fragment", "51": "authentication", "60": "destination-options"}
# The layers of messages: the program's name of the header, and of what has to be long enough.
LAYERS = {"the IP header": ("IpHeader", ""), "the IPv4 header": ("Ipv4Header", ""), "the IPv4 packet": ("Ipv4Packet", ""),
          "the IPv6 header": ("Ipv6Header", ""), "the IPv6 packet": ("Ipv6Packet", ""),
          "the authentication header": ("IpAuthHeader", "IpAuthHeader"), "the fragment header": ("Ipv6FragHeader", "Ipv6FragHeader"),
          "the hop-by-hop options header": ("Ipv6ExtHeader", "Ipv6HopByHopHeader"), "the routing header": ("Ipv6ExtHeader", "Ipv6RouteHeader"),
          "the destination options header": ("Ipv6ExtHeader", "Ipv6DestOptionsHeader")}
SOURCES = {"": "Slice", "the total length": "Ipv4HeaderTotalLen", "the payload length": "Ipv6HeaderPayloadLen"}
SHORT = re.compile(r"(?:truncated: )?not enough bytes for (.*) at offset (\d+): (\d+) needed, (\d+) there(?: by (.*))?$")
# Names of errors in the table, as `ipcap stat` has them, and what the program says of them.
NAMED = {"not-at-start hop-by-hop": ("HopByHopNotAtStart", "Ipv6HopByHopHeader"),
         "zero-length authentication": ("ZeroPayloadLen", "IpAuthHeader"), "unsupported-version IP-header": ("UnsupportedIpVersion", ""),
         "header-length IPv4-header": ("Ipv4HeaderLengthSmallerThanHeader", "")}
def fault_said(answer, named_layer):
    """Converts the error in the picture and in the table to the program's line."""
    offset, _, _, what, _, name = answer["rows"][-1]
    short = SHORT.match(answer["why"])
    if short:
        layer, at, required, there, source = short.groups()
        if at != offset:
            return f"the picture has the error at {at}, the table at {offset}"
        header = f" in {LAYERS[layer][1]}" if named_layer and LAYERS[layer][1] else ""
        return f"{what} len {required} of {there} {SOURCES[source or '']} {LAYERS[layer][0]} at {offset}{header}"
    if name not in NAMED:
        return f"{name}: {answer['why']}"
    kind, header = NAMED[name]
    value = re.search(r" is (\d+), where ", answer["why"])
    return f"fault {kind}{f' {value[1]}' if value else ''}{f' in {header}' if named_layer and header else ''}"


def chain_said(line, answer):
    """Converts the table of a chain to the program's answer."""
    form, first, hexes = line.split(" ")
    rows = answer["rows"]
    headers = [it for it in rows if it[4] != "" and it[3] in HEADERS]
    said = [f"{it[0]} {HEADERS[it[3]]} {it[1]}" for it in headers]
    number = headers[-1][4] if headers else first
    taken = sum(int(it[1]) for it in headers)
    left = len(hexes.replace("-", "")) // 2 - taken
    rest = [it for it in rows if it[3] != "fault" and it not in headers]
    if [it[1:3] for it in rest] != ([[str(left), number]] if left else []):
        return [f"the rest {rest} isn't {left} bytes of {number}"]
    end = [fault_said(answer, form != "exts4")] if rows and rows[-1][3] == "fault" else ["ok"]
    if form == "rewriteall6":
        return [f"runs {runs_in(headers, number)} next {number} rest {left}", *end]
    return [*said, f"next {number} rest {left}", *end]


def runs_in(headers, number):
    """Returns the number of structs in the table, plus one if the last one has no place for what would follow."""
    places = [re.fullmatch(r"struct (\d+), (.*)", it[5]).groups() for it in headers]
    if not places:
        return 1
    last = {place for struct, place in places if struct == places[-1][0]}
    place = "final destination-options" if number == "60" and "routing" in last else NUMBERS.get(number)
    return int(places[-1][0]) + (place in last and number != "0")


def fragment_said(rows):
    """Converts the remark of the header that has the fields of a fragment to the program's words."""
    remarks = [it[5] for it in rows if " fragment, " in it[5]]
    found = re.search(r"(\w+) fragment, identification 0x([0-9a-f]{8}|[0-9a-f]{4}), offset (\d+)$", remarks[0]) if remarks else None
    return f"{found[1]} id {int(found[2], 16)} offset {found[3]}" if found and len(remarks) == 1 else f"none{remarks or ''}"


def dissection_said(answer):
    """Converts the table of a packet to the program's answer to `dissect`."""
    rows = [it for it in answer["rows"] if it[3] not in ("fault", "truncated")]
    end = "payload" if rows == answer["rows"] else fault_said(answer, rows[:1] and rows[0][3] == "IPv6")
    if not rows or rows[0][3] not in ("IPv4", "IPv6"):
        return [end]
    base, *parts = rows
    stated = re.match(r"stated length (\d+)", base[5])
    headers = [it for it in parts if it[4] != ""]
    fragment = fragment_said(rows)
    if fragment.startswith(("middle", "last")):
        end = "later fragment"
    sums = {name: sum(int(it[1]) for it in parts if it[4] == "" and (it[3] if it[3] in ("missing", "padding") else "rest") == name)
            for name in ("rest", "missing", "padding")}
    return [f"{base[3].lower()} base {base[1]} stated {stated[1] if stated else 'none'}",
            *[f"{it[0]} {HEADERS[it[3]]} {it[1]}" for it in headers],
            f"fragment {fragment}", f"next {(headers or [base])[-1][4]} rest {sums['rest']}",
            f"missing {sums['missing']} padding {sums['padding']}", end]


def packet_said(said):
    """Converts the answer to `dissect` to the answer to `packet`, without what that says of fragments and length sources."""
    version, _, base, *_ = said[0].split(" ")
    exts = sum(int(it.split(" ")[2]) for it in said[1:-4])
    _, number, _, rest = said[-3].split(" ")
    return [f"{version} header {base} exts {exts} payload {rest}", f"next {number}", said[-1]]


def is_whole(said):
    """Returns whether a packet, by the answer to `dissect`, is one that the form `packet` accepts."""
    has_length = not re.fullmatch(r"ipv4 base \d+ stated none", said[0])
    return said[-1] == "payload" and said[-2].startswith("missing 0 ") and has_length
