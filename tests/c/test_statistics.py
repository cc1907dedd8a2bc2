"""Compares the C library's statistics with those of a plain counter: tests/c/statistics.c spreads the packets over three
statistics, and merges these. With `--pcap FILE`, counts the packets of captures, classic pcap files of Ethernet or raw IP.
"""

from counter import FIELDS, captured_lines, made_lines, plain_counts
from tools import ROOT, WARNINGS, run


def pytest_generate_tests(metafunc):
    metafunc.parametrize("source", metafunc.config.getoption("--pcap") or ["made"])


def test_counts_are_those_of_the_plain_counter(library, source, tmp_path):
    lines = made_lines() if source == "made" else captured_lines(source)
    program = f"{tmp_path}/statistics"
    run("gcc", "-std=c11", "-O1", *WARNINGS, f"-I{ROOT}/include", f"{ROOT}/tests/c/statistics.c", library.archive, "-o", program)
    said = run(program, "count", input="".join(f"{kind}{packet.hex()}\n" for kind, packet in lines))
    named = [f"{name}[{i}]" for name, count in FIELDS.items() for i in range(count)]
    assert dict(zip(named, map(int, said.split()), strict=True)) == dict(zip(named, plain_counts(lines), strict=True))
