"""What the page reads: pastes in each format, captures, and bytes of each kind."""

import base64

import pytest

from files import DAMAGED, FRAMES, IN_PCAPNG, OTHERS, capture, pcapng
from packets import FAULTY, FRAME, LIKE_FRAME, SENTENCES, VERSION_5
from pastes import HEADER, PACKET, PRINTABLE, READ, REFUSED, spellings

# What the parts of frames and packets that come first are named.
LAYERS = ["Ethernet", "Linux cooked", "loopback", "PPP", "802.11", "radiotap", "Cisco HDLC", "PPPoE", "Frame Relay", "IPv4", "IPv6"]
# How many packets of a capture are listed.
LISTED = 10000
FRAME_BYTES, HEADER_BYTES, PACKET_BYTES = (bytes.fromhex(it) for it in (FRAME, HEADER, PACKET))
SPELT = [(f"{name} ({len(it)} bytes)", text, [it.hex()], "Read as ") for it in (PACKET_BYTES, PRINTABLE, PACKET_BYTES + b"\x80")
         for name, text in spellings(it).items()]


def drop(page, content, **more):
    """Returns the reply after a file was dropped."""
    return page.ask({"drop": base64.b64encode(content).decode(), **more})


def captures():
    """Returns captures, one in each byte order and unit of time, and one of each frame: with its packets and their time."""
    frames, rows = [FRAME_BYTES] * 2, []
    for order in "<>":
        rows.append((capture(order, 0xa1b2c3d4, 1, frames), [["ethernet", FRAME]] * 2, "05.000250Z"))
        rows.append((capture(order, 0xa1b23c4d, 1, frames), [["ethernet", FRAME]] * 2, "05.000000250Z"))
    # The upper bits of the link type say how long the frame check sequence is.
    rows.append((capture("<", 0xa1b2c3d4, 0x24000001, frames), [["ethernet", FRAME]] * 2, "05.000250Z"))
    return rows + [(capture("<", 0xa1b2c3d4, link, [bytes.fromhex(it)]), [[kind, it]], "05.000250Z") for link, kind, it in FRAMES]


@pytest.mark.parametrize(("name", "pasted", "hexes", "words"), SPELT + READ, ids=[it[0] for it in SPELT + READ])
def test_pastes_are_read(page, name, pasted, hexes, words):
    reply = page.text("packet", pasted, each=True)
    assert (reply["unread"], reply["marks"]) == ("", []) and words in reply["reading"]
    assert [it for _, it in reply["each"]] == hexes


@pytest.mark.parametrize(("name", "pasted", "hexes", "words", "marks"), REFUSED, ids=[it[0] for it in REFUSED])
def test_pastes_are_refused(page, name, pasted, hexes, words, marks):
    reply = page.text("packet", pasted)
    assert (reply["hex"], reply["marked"]) == (hexes, pasted + "\n") and words in reply["unread"]
    assert reply["marks"] == marks if marks else len(reply["marks"]) > 0


@pytest.mark.parametrize(("content", "wanted", "time"), captures())
def test_captures(page, content, wanted, time):
    reply = drop(page, content)
    assert (reply["each"], reply["told"], reply["why"]) == (wanted, "", "")
    assert f": 1970-01-01T00:00:{time}, " in reply["list"][0][0]
    assert reply["rows"][0][3] in LAYERS and reply["rows"][-1][3] == "UDP"


@pytest.mark.parametrize("order", "<>")
def test_pcapng(page, order):
    reply = drop(page, pcapng(order))
    assert reply["told"] == "" and [it for it, _ in reply["list"]] == IN_PCAPNG and reply["list"][5][1] == "truncated"


@pytest.mark.parametrize(("link", "frame", "length", "words"), OTHERS)
def test_frames_without_ip(page, link, frame, length, words):
    reply = drop(page, capture(">", 0xa1b2c3d4, link, [bytes.fromhex(frame)]))
    assert (reply["summary"], reply["why"], reply["list"][0][1], reply["rows"][0][1]) == (words, "", "", str(length))
    assert [it[3] for it in reply["rows"][1:]] == ["payload of the frame"]


@pytest.mark.parametrize(("content", "words"), DAMAGED)
def test_damaged_or_empty_files(page, content, words):
    """The packet that was there before goes."""
    reply = page.text("auto", PACKET)
    assert (reply["isEmpty"], reply["hex"]) == (False, PACKET)
    reply = drop(page, content)
    assert words in reply["told"] and [reply[it] for it in ("isEmpty", "list", "hex", "text")] == [True, [], "", ""]


def test_marks_in_a_list(page):
    several = [PACKET_BYTES, bytes.fromhex(FAULTY), (PACKET_BYTES[:50], 60), bytes.fromhex(VERSION_5)]
    head, addresses = "1970-01-01T00:00:05.000250Z", "2001:db8::1 > 2001:db8::2"
    reply = drop(page, capture("<", 0xa1b2c3d4, 101, several))
    assert reply["list"] == [[f"packet 1: {head}, {addresses}, 60 bytes, IP at 0: IPv6 60,44 -> 17", ""],
                             [f"packet 2: {head}, {addresses}, 64 bytes, IP at 0: IPv6 60 -> 43 fault", "fault"],
                             [f"packet 3: {head}, {addresses}, 50 of 60 bytes, IP at 0: IPv6 60 -> 44 truncated", "truncated"],
                             [f"packet 4: {head}, 20 bytes, IP at 0: unread base header fault", "fault"]]
    assert "4 packets, 2 with a fault, 1 truncated" in reply["said"]


def test_frames_too_short_for_ethernet(page):
    reply = drop(page, capture("<", 0xa1b2c3d4, 1, [HEADER_BYTES, HEADER_BYTES, (HEADER_BYTES, 60)]))
    assert [it for _, it in reply["list"]] == ["", "", "truncated"]
    assert reply["summary"] == "A frame of 12 bytes: Ethernet; then a truncated header at byte 12."
    assert "packet 1: 1970-01-01T00:00:05.000250Z, 12 bytes, too short for a header of Ethernet, not IP" in reply["said"]


def test_more_packets_than_are_listed(page):
    reply = drop(page, capture("<", 0xa1b2c3d4, 101, [bytes.fromhex(FAULTY)] * (LISTED + 5)), head=True)
    assert reply == {"head": f"{LISTED + 5} packets; of the first {LISTED}, {LISTED} with a fault",
                     "told": f"Only the first {LISTED} of {LISTED + 5} packets are listed."}


def test_captures_are_read_in_parts(page):
    """Of more than a megabyte, and with a frame that is longer than that."""
    whole, longest = bytes.fromhex("600000000500" "1140") + bytes(32 + 0x500), bytes.fromhex("6000000000001140") + bytes(3 << 19)
    reply = drop(page, capture(">", 0xa1b2c3d4, 101, [*[whole] * 1000, longest, *[whole] * 5]), head=True)
    assert reply == {"head": "1006 packets", "told": ""}


def test_frames_of_a_link_type(page):
    """Those without a kind of their own are chosen by its number, also in links."""
    link, kind, frame = FRAMES[-1]
    reply = page.text(kind, frame, first=link)
    assert (reply["why"], reply["summary"][:41]) == ("", "A frame of 64 bytes: Frame Relay, IPv6, d")
    reply = page.ask({"hash": f"#frame:127:{FRAMES[-4][2]}"})
    assert (reply["kind"], reply["rows"][0][:4]) == ("frame", ["0", "40", "", "radiotap"])
    assert page.text(kind, frame, first=147)["summary"] == "A frame of 64 bytes: link type 147 isn't supported."


@pytest.mark.parametrize(("kind", "frame"), [(kind, frame) for _, kind, frame in FRAMES if kind not in ("ppp", "frame")])
def test_kinds_are_recognized(page, kind, frame):
    reply = page.text("auto", frame)
    assert (reply["kind"], reply["why"]) == (kind, "") and "This is a" in reply["found"]


@pytest.mark.parametrize(("kind", "pasted", "wanted"), [
    ("auto", FRAME, {"found": "This is an Ethernet frame, by its EtherType."}),
    ("auto", PACKET, {"found": "This is an IP packet, by its version and length."}),
    ("auto", LIKE_FRAME, {"kind": "packet"}),
    ("auto", OTHERS[0][1], {"kind": "ethernet", "why": ""}),
    ("auto", VERSION_5, {"found": "Nothing was recognized: taken as an IP packet.", "hint": "", "why": SENTENCES[4][2]}),
    ("packet", FRAME, {"kind": "packet", "why": "no IP header begins here",
                       "hint": "These bytes look like an Ethernet frame. Read them as an Ethernet frame"}),
])
def test_what_is_said_of_a_kind(page, kind, pasted, wanted):
    reply = page.text(kind, pasted)
    assert {name: reply[name] for name in wanted} == wanted


def test_hints(page):
    reply = page.text("packet", FRAME, press="take-hint")
    assert [reply[it] for it in ("kind", "why", "hint", "found")] == ["ethernet", "", "", ""]
    assert "These bytes look like an IP packet." in page.text("ethernet", PACKET)["hint"]


def test_captures_as_text(page):
    file, frames = capture("<", 0xa1b2c3d4, 1, [FRAME_BYTES] * 2), [["ethernet", FRAME]] * 2
    assert page.text("auto", file.hex(), each=True)["each"] == frames
    reply = page.text("auto", base64.b64encode(file).decode(), each=True)
    assert (reply["each"], reply["found"]) == (frames, "This is an Ethernet frame, by the link type of the capture.")
    assert page.text("packet", file.hex(), press="take-hint", each=True)["each"] == frames


def test_a_capture_whose_kind_is_changed(page):
    reply = drop(page, capture("<", 0xa1b2c3d4, 1, [FRAME_BYTES] * 2), kind="packet")
    assert reply["each"] == [["packet", FRAME]] * 2 and [it for _, it in reply["list"]] == ["fault", "fault"]


def test_the_list_of_a_capture(page):
    """A link to a packet of a capture keeps the list, and keys choose in it."""
    reply = drop(page, pcapng("<"), link=True)
    assert reply["hex"] == FRAME and [it for it, _ in reply["list"]] == IN_PCAPNG
    reply = drop(page, pcapng("<"), keys=["ArrowDown", "ArrowDown", "End", "ArrowDown", "Home", "ArrowUp"])
    assert reply == {"chosen": [1, 2, 5, 5, 0, 0], "listStops": 1}


def test_the_name_of_a_chosen_file_goes_with_its_packets(page):
    assert page.ask({"choose": base64.b64encode(pcapng("<")).decode(), "then": f"#packet:{PACKET}"}) == [1, 0]
