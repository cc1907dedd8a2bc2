"""Compares the page's table with the program's answers to the lines of crates/ipexts/stdin, and to some packets more."""

import re

from packets import DISSECTIONS
from shown import chain_said, dissection_said, is_whole, packet_said
from tools import lines_and_answers

LINE = re.compile(r"(exts6|exts4|rewriteall6) (0|[1-9]\d{0,2}) (-|(?:[0-9A-Fa-f]{2})+)$|(packet|dissect) (-|(?:[0-9A-Fa-f]{2})+)$")
KINDS = {"exts6": "chain6", "rewriteall6": "chain6", "exts4": "chain4", "packet": "packet", "dissect": "packet"}


def rows():
    """Returns the lines that the page can display, with the program's answers."""
    found = [(line.decode("latin-1"), [it.decode() for it in answer]) for line, answer in lines_and_answers()]
    return [(line, answer) for line, answer in found if LINE.match(line) and answer != ["bad line"]]


def question(line):
    form, *rest = line.split(" ")
    text = rest[-1].replace("-", "")
    return {"kind": KINDS[form], "first": int(rest[0]) if len(rest) > 1 else 0, "text": text, "places": form == "rewriteall6"}


def packets_agree(line, answer, shown):
    """Compares a packet with the answer to `packet`. Returns the number of comparisons: none for a later fragment, after
    which that form parses on."""
    said = dissection_said(shown)
    if said[-1] == "later fragment":
        return 0
    assert is_whole(said) == (answer[-1] == "ok"), f"{line}: the page shows {said}, the program's answer is {answer}"
    if is_whole(said):
        assert packet_said(said) == [answer[0], " ".join(answer[-2].split(" ")[:2]), "payload"], line
    return 1


def test_tables_are_the_answers_to_lines(page):
    asked, compared = rows(), 0
    for (line, answer), shown in zip(asked, page.ask(*(question(line) for line, _ in asked)), strict=True):
        if line.startswith("packet"):
            compared += packets_agree(line, answer, shown)
            continue
        said = dissection_said(shown) if line.startswith("dissect") else chain_said(line, shown)
        assert said == [it for it in answer if not it.startswith("written")], f"{line}: {shown['rows']}"
        compared += 1
    assert compared >= 1000


def test_tables_are_those_worked_out_by_hand(page):
    for hexes, answer in DISSECTIONS:
        assert dissection_said(page.text("packet", hexes)) == answer, hexes
