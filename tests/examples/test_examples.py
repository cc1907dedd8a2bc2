"""Runs the examples at the head of README.md over the same packets, with what `make programs` has built. Each must have eight lines
and print the same.
"""

import os
import re
import sys

import pytest

from tools import ROOT, WARNINGS, read, run, write

sys.path.append(f"{ROOT}/tests/ipcap")

from captures import LATER_FRAGMENT, TCP, UDP, capture, ethernet, fragment, ipv4, ipv6, ipv6_chain

BUILD = f"{ROOT}/build"
# packets without a whole UDP datagram, except for the first three
PACKETS = [ipv6_chain([0, 44, 60]), ipv4(17, UDP), ipv6(17, UDP), ipv4(6, TCP), LATER_FRAGMENT, ipv6_chain([0, 43])[:52],
           ipv6(44, fragment(17, 0, 1) + UDP), ipv6(60, b"\x11"), bytes(60)]
WANTED = "".join(f"UDP datagram of {len(UDP)} bytes after {headers} extension headers\n" for headers in (3, 0, 0))
C_MAIN = """int main(void) {
    const struct { size_t len; const char *bytes; } packets[] = { %s };
    for (size_t i = 0; i < sizeof packets / sizeof *packets; i++)
        print_udp((const uint8_t *)packets[i].bytes, packets[i].len);
    return 0;
}
"""
RUST_MAIN = "fn main() {\n    let packets: &[&[u8]] = &[%s];\n    packets.iter().for_each(|packet| print_udp(packet));\n}\n"
MANIFEST = '[package]\nname = "example"\nversion = "0.0.0"\nedition = "2024"\n[dependencies]\nwolfaren = { path = "%s" }\n'


def hex_text(packet):
    """Returns the bytes as they are in a text of C or Rust."""
    return "".join(f"\\x{byte:02x}" for byte in packet)


def run_c(code, room):
    rows = ", ".join(f'{{ {len(it)}, "{hex_text(it)}" }}' for it in PACKETS)
    source = write(f"{room}/example.c", code + C_MAIN % rows)
    run("cc", "-std=c99", *WARNINGS, f"-I{BUILD}", source, f"{BUILD}/libwolfaren.a", "-o", f"{room}/example")
    return run(f"{room}/example")


def run_rust(code, room):
    write(f"{room}/Cargo.toml", MANIFEST % f"{BUILD}/rust")
    write(f"{room}/src/main.rs", code + RUST_MAIN % ", ".join(f'b"{hex_text(it)}"' for it in PACKETS))
    flags = run("scripts/test-rust", "--flags").split()
    return run("cargo", "run", "--quiet", *flags, cwd=room, env={**os.environ, "CARGO_TARGET_DIR": f"{BUILD}/rust-target"})


def run_python(code, room):
    run("scripts/copy-python", f"{room}/package")
    (room / "example.pcap").write_bytes(capture([ethernet(packet, (), 0x86DD) for packet in PACKETS]))
    return run(sys.executable, "-c", code, cwd=room, env={**os.environ, "WOLFAREN_LIB_DIR": BUILD, "PYTHONPATH": f"{room}/package/src"})


RUNS = {"c": run_c, "rust": run_rust, "python": run_python}


@pytest.mark.parametrize("language", RUNS)
def test_examples(language, tmp_path):
    (code,) = re.findall(rf"^```{language}\n(.*?)^```$", read(f"{ROOT}/README.md"), re.M | re.S)
    assert code.count("\n") == 8
    assert RUNS[language](code, tmp_path) == WANTED
