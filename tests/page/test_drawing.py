"""What the page shows of bytes that it has read: picture, table, summary and fields, and how it is used."""

import re
import time

import pytest

from conftest import Page
from files import capture
from packets import DISSECTIONS, FAULTY, FIELDS, FIRST_FRAGMENT, FRAME, LATER_FRAGMENT, LONG, MISSING, RED, SENTENCES, TRUNCATED, TWO_FRAGMENTS
from pastes import HEADER, PACKET, UNENDED
from tools import ROOT, read

# The length of long pastes in characters, and how long all of them may take. It is some seconds, or minutes if each takes a
# time that grows with the square of its length.
MOST_PASTED, MOST_SECONDS = 150000, 60
NARROW = 390
# What is drawn in a window of this width: the kind, the text, whether with places, and words that must be there unabridged.
SIZES = [
    ("packet", PACKET, True, "struct 1 ▸ destination-options 60"), ("packet", FAULTY, False, "16 there by the payload length"),
    ("packet", FIRST_FRAGMENT, False, "part of payload 17"), ("packet", FIELDS[0][1], False, "43 routing"),
    ("packet", FIELDS[1][1], False, "Header Checksum"), ("ethernet", FRAME, False, "Ethernet"), ("packet", LONG, False, "left out"),
    ("packet", DISSECTIONS[6][0], True, "padding"), ("packet", "0g 0000 " * 40, False, "IP version"),
    ("auto", capture("<", 0xa1b2c3d4, 1, [bytes.fromhex(FRAME)] * 3).hex(), False, "fragment"),
]


@pytest.mark.parametrize(("packet", "name", "words"), SENTENCES)
def test_sentences_of_errors(page, packet, name, words):
    reply = page.text("packet", packet)
    assert reply["why"] == words and reply["rows"][-1][5] == name
    assert reply["said"].count(words[:18]) == 1 and (reply["said"].count(name) == 1 or "-" not in name)
    assert "Ipv6" not in reply["said"] and "Slice" not in reply["said"]
    assert reply["colour"] not in ("", RED) if words.startswith("truncated") else reply["colour"] == RED


def test_a_fault(page):
    assert page.text("packet", FAULTY)["summary"] == "A packet of 64 bytes: IPv6, destination-options (8); then a fault at byte 48."


def test_a_truncated_header(page):
    reply = page.text("packet", TRUNCATED)
    assert reply["styles"] == ["base", "destination", "fragment incomplete", "missing"]
    assert reply["summary"] == "A packet of 50 bytes: IPv6, destination-options (8); then a truncated header at byte 48."


def test_missing_payload(page):
    reply = page.text("packet", MISSING)
    assert reply["names"] == ["IPv6", "UDP 17", "56 bytes missing"] and reply["rows"][2] == ["48", "56", "", "missing", "", ""]
    assert "with 8 bytes, 56 missing" in reply["summary"]


def test_fragments(page):
    reply = page.text("packet", FIRST_FRAGMENT)
    assert (reply["names"], reply["styles"]) == (["IPv6", "fragment 44", "part of payload 17"], ["base", "fragment", "rest of-fragment"])
    assert "; then part of a payload of UDP (17) with 16 bytes." in reply["summary"]
    assert [it[5] for it in reply["rows"][:2]] == ["stated length 64", "first fragment, identification 0x00000007, offset 0"]
    reply = page.text("packet", LATER_FRAGMENT)
    assert "; then part of a payload of destination-options (60) with 8 bytes." in reply["summary"] and reply["names"][2] == "part of payload 60"
    # of two fragment headers, the second one fragments
    assert [it[5] for it in page.text("packet", TWO_FRAGMENTS)["rows"][1:3]] == ["", "first fragment, identification 0x0000000a, offset 0"]
    assert page.text("packet", DISSECTIONS[7][0])["rows"][0][5] == "no stated length; middle fragment, identification 0x0001, offset 65528"


def test_an_empty_text(page):
    reply = page.text("packet", "")
    assert reply["isEmpty"] and [it[3] for it in reply["rows"]] == ["truncated"]


def test_64_kilobytes(page):
    reply = page.text("packet", LONG)
    assert reply["hex"] == LONG and len(reply["rows"]) == 8187 and reply["rows"][1][:5] == ["40", "8", "0", "hop-by-hop", "60"]


@pytest.mark.parametrize(("kind", "packet", "wanted"), FIELDS)
def test_fields(page, kind, packet, wanted):
    assert page.text(kind, packet, fields=True)[:len(wanted)] == wanted


def test_headers_of_frames(page):
    rows = page.text("ethernet", f"{HEADER}8100000186dd{PACKET}")["rows"]
    assert [it[:4] for it in rows][:2] == [["0", "18", "", "Ethernet"], ["18", "40", "", "IPv6"]]
    reply = page.text("ethernet", HEADER)
    assert reply["rows"][-1] == ["12", "", "", "truncated", "", "Ethernet header"] and reply["colour"] != RED


def test_links(page):
    reply = page.ask({"hash": f"#packet:{PACKET}"})
    assert [reply[it] for it in ("hex", "parts", "arrows")] == [PACKET, 4, 3]
    assert [it[:5] for it in reply["rows"]] == [["0", "40", "", "IPv6", "60"], ["40", "8", "60", "destination-options", "44"],
                                                ["48", "8", "44", "fragment", "17"], ["56", "4", "17", "UDP", ""]]
    # the picture that is saved, keys, and the one stop of Tab, in what the link has drawn
    keys = ["IPv6, 40 bytes at 0", "1", "destination-options, 8 bytes at 40", "3", "3", "0", "0"]
    assert page.ask({"use": True}) == {"save": {"root": "svg", "runs": 6, "coloured": 6, "colours": 4}, "keys": keys, "stops": 1}


def test_links_to_kinds(page):
    reply = page.ask({"hash": "#chain6:60:places:2b000000000000002c00000000000000"})
    assert [it[5] for it in reply["rows"][:2]] == ["struct 1, destination-options", "struct 1, routing"]
    reply = page.ask({"hash": f"#ethernet:{FRAME}"})
    assert reply["kind"] == "ethernet" and "This is an Ethernet frame" in reply["found"]
    reply = page.ask({"hash": f"#packet:{FRAME}"})
    assert reply["kind"] == "packet" and "Read them as" in reply["hint"]


def test_examples_and_where_captures_are_dropped(page):
    reply = page.ask({"gallery": True})
    assert reply["drop"] and reply["isShown"]
    said = [it for _, it in reply["found"]]
    assert len(set(said)) == len(said) >= 8
    assert [sum(words in it for it in said) for words in ("fault at", "truncated header", "part of a payload")] == [1, 1, 2]


def test_names_of_numbers(page):
    """They are those of the definitions."""
    rows = re.search(r"^number_words =\n((?: .*\n)+)", read(f"{ROOT}/crates/ip_codes/specs/CodeWords.antt"), re.M)[1]
    names = re.findall(r'(?:codes "(.*?)"|\[\]) ∷', rows)
    assert page.ask({"names": True}) == names + [""] * (256 - len(names))


def test_requests_are_refused(page):
    assert {"img-src", "connect-src"} <= {*page.ask({"violate": True})}


def test_long_pastes_take_little_time(page):
    """The time for long pastes of what begins and never ends grows with their length only."""
    began = time.monotonic()
    assert len(page.ask(*({"read": (it * MOST_PASTED)[:MOST_PASTED]} for it in UNENDED))) == len(UNENDED)
    assert time.monotonic() - began < MOST_SECONDS


@pytest.fixture
def narrow(page):
    page.resize(NARROW)
    yield page
    page.browser.execute_cdp_cmd("Emulation.clearDeviceMetricsOverride", {})


@pytest.mark.parametrize(("kind", "pasted", "places", "words"), SIZES)
def test_a_narrow_window_is_whole(narrow, kind, pasted, places, words):
    """In a narrow window, no text is cut, letters have 11 pixels, and rows 8 bytes."""
    reply = narrow.ask({"size": {"kind": kind, "text": pasted, "places": places}})
    assert (reply["wide"], reply["wrong"], reply["scrolls"], reply["rows"][:2]) == (NARROW, [], False, ["0000", "0008"])
    assert words in reply["said"] and "…" not in reply["said"]


def test_old_browsers_are_told(page, browser):
    """A browser without what the library needs shows a message: WebAssembly, with 64-bit memory if Rattle has compiled it."""
    page.needs_chromium()
    lacking, words = (("WebAssembly.validate = () => false;", "64-bit WebAssembly memory") if browser.execute_script("return Wolfaren.pointerSize") == 8
                      else ("delete window.WebAssembly;", "WebAssembly, which the library needs"))
    script = browser.execute_cdp_cmd("Page.addScriptToEvaluateOnNewDocument", {"source": lacking})
    old = Page(browser)
    assert f"This browser doesn't support {words}" in browser.find_element("tag name", "body").text
    browser.execute_cdp_cmd("Page.removeScriptToEvaluateOnNewDocument", script)
    old.open()
