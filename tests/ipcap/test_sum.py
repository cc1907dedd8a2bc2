"""Tests of `ipcap sum`."""

import json
import random

from captures import *
from expected import statistics
from test_stat import random_frames


def test_sums(harness):
    """The statistics of the parts of a capture add up to those of the whole, also in several steps."""
    frames = random_frames(300, 2) + [ethernet(b""), ethernet(ipv6(0, b""))]
    whole = harness.run("stat", "--json", harness.file(capture(frames)))[1]
    draw = random.Random(3)
    bounds = sorted(draw.sample(range(len(frames)), 4))
    files = [harness.file(capture(frames[a:b])) for a, b in zip([0] + bounds, bounds + [len(frames)])]
    parts = [harness.run("stat", "--json", file)[1] for file in files]
    harness.equal(harness.run("sum", "--json", content=b"".join(parts)), (0, whole, "", None), "parts")
    for _ in range(5):
        shuffled = draw.sample(parts, len(parts))
        harness.equal(harness.run("sum", "--json", content=b"".join(shuffled)), (0, whole, "", None), "another order")
    joined = harness.run("sum", "--json", content=b"".join(parts[:2]))[1]
    rest = harness.run("sum", "--json", content=b"".join(parts[2:]))[1]
    harness.equal(harness.run("sum", "--json", content=rest + joined), (0, whole, "", None), "parts of parts")
    harness.equal(harness.run("stat", "--json", *files), (0, whole, "", None), "parts as files")
    harness.equal(harness.run("sum", content=whole)[1], harness.run("stat", *files)[1], "tables")
    spread = json.dumps(json.loads(whole), indent=2, sort_keys=True).encode()
    harness.equal(harness.run("sum", "--json", content=spread), (0, whole, "", None), "white space and another order")
    total = json.loads(harness.run("sum", "--json", content=whole * 3)[1])
    one = json.loads(whole)
    wanted = {name: {k: v * 3 for k, v in part.items()} if isinstance(part, dict) else part * 3
              for name, part in one.items() if name != "version"}
    harness.equal(total, {"version": "1.4", **wanted}, "three times the whole")


def refuse(harness, content, words, name, *options):
    status, found, errors, _ = harness.run("sum", "--json", *options, content=content)
    harness.equal((status, found), (1, b""), name)
    harness.check(errors.startswith("ipcap: standard input: ") and errors.count("\n") == 1 and words in errors, name, errors)


def good(**parts):
    """Statistics of one packet, as JSON. Members can be overridden."""
    counts = statistics(packets=1, ipv6=1, at_payload=1, chains={"IPv6 0 -> 17": 1}, chain_headers={"1": 1},
                        chain_bytes={"8": 1}, headers={"0": 1}, payload_numbers={"17": 1})
    return json.dumps({**counts, **parts}, separators=(",", ":")).encode()


def test_malformed(harness):
    text = good()
    cases = [(b"", "no statistics"), (b" \n ", "no statistics"), (b"x", "expected '{', found 'x'"), (b"[]", "'['"),
             (b"null", "'n'"), (b"{}", "has no \"version\""), (b"\xff", "byte 0xff"),
             (b"{\"version\":\"1.1\",\"other_frames\":0}", "has no \"truncated_frames\""),
             (text + b"x", "'x'"), (text + b",", "','"), (text[:-1] + b",}", "expected a text in quotes, found '}'"),
             (text.replace(b":1", b":-1", 1), "'-'"), (text.replace(b":1", b":01", 1), "'1'"),
             (text.replace(b":1", b":1.5", 1), "'.'"),
             (text.replace(b":1", b":1e3", 1), "'e'"), (text.replace(b":1", b":\"1\"", 1), "a count"),
             (text.replace(b":1", b":", 1), "a count"),
             (text.replace(b":1", b":18446744073709551616", 1), "exceeds 18446744073709551615"),
             (text.replace(b":1", b":99999999999999999999999", 1), "exceeds 18446744073709551615"),
             (text.replace(b":1", b":2", 1), "don't add up"),
             (text.replace(b"packets", b"packet"), "has no \"packets\""),
             (text.replace(b"packets", b"pack\\u0065ts"), "has no \"packets\""),
             (text[:-1] + b",\"new\":1}", "unknown member"), (text[:-1] + b",\"new\":{\"a\":1}}", "unknown member"),
             (text[:-1] + b",\"new\":[1]}", "'['"), (text[:-1] + b",\"new\":{\"a\":{}}}", "'{'"),
             (b"{" + text[1:-1] + b",\"packets\":1}", "duplicate name in the object"),
             (text.replace(b"packets", b"x" * 1000), "longer"), (text.replace(b"packets", b"\0"), "byte 0x00"),
             (text.replace(b"packets", b"\n"), "byte 0x0a"), (text.replace(b"\"packets\"", b"packets"), "'p'")]
    tables = [({"chains": {"IPv6 0 -> 17": 0}}, "is 0"), ({"chains": {"x": 1}}, "not a chain"),
              ({"chains": {"IPv5 0 -> 17": 1}}, "not a chain"),
              ({"chains": {"IPv6 256 -> 17": 1}}, "not a chain"), ({"chains": {"IPv6 00 -> 17": 1}}, "not a chain"),
              ({"chains": {"": 1}}, "not a chain"),
              ({"chains": {"IPv6 0, -> 17": 1}}, "not a chain"), ({"chains": {"IPv6 0 -> 17 faulty": 1}}, "not a chain"),
              ({"chains": {"IPv6 " + "0," * 64 + "0 -> 17": 1}}, "not a chain"),
              ({"chains": {"IPv4 0 -> 17": 1}}, "don't add up"),
              ({"chains": {}}, "don't add up"), ({"chains": []}, "'['"), ({"chains": {"IPv6 0 -> 17": {}}}, "'{'"),
              ({"chains": 1}, "'1'"),
              ({"chain_bytes": {"08": 1}}, "not in \"chain_bytes\""), ({"chain_bytes": {"x": 1}}, "not in \"chain_bytes\""),
              ({"chain_bytes": {"9" * 40: 1}}, "not in \"chain_bytes\""), ({"chain_bytes": {"260": 1}}, "not in"),
              ({"chain_bytes": {"8": 2}}, "don't add up"), ({"chain_headers": {"17": 1}}, "not in \"chain_headers\""),
              ({"payload_numbers": {"256": 1}}, "not in \"payload_numbers\""), ({"payload_numbers": {"": 1}}, "not in"),
              ({"payload_numbers": {"17 ": 1}}, "not in"), ({"payload_numbers": {"17": 2}}, "don't add up"),
              ({"faults": {"too-short": 1}}, "not in \"faults\""), ({"faults": {"routing": 1}}, "not in \"faults\""),
              ({"faults": {"too-short x": 1}}, "not in"), ({"faults": {" routing": 1}}, "not in"),
              ({"faults": {"too-short ": 1}}, "not in"), ({"truncated_headers": {"": 1}}, "not in \"truncated_headers\""),
              ({"without_header": 1}, "don't add up"), ({"truncated_frames": 2}, "don't add up"), ({"mismatched": 2}, "don't add up"),
              ({"first_fragments": 2}, "don't add up"), ({"incomplete": 2}, "don't add up"), ({"at_fault": 1}, "don't add up"),
              ({"packets": 2**64 - 1, "without_header": 2**64 - 1}, "don't add up"),
              ({"other_frames": 1}, "don't add up"), ({"other_protocols": {"other": 1}}, "don't add up"),
              ({"version": "2.0"}, "another major number"), ({"version": "0.1"}, "another major number"),
              ({"version": "1"}, "not two numbers"), ({"version": "1.0.0"}, "not two numbers"),
              ({"version": "1.256"}, "not two numbers"), ({"version": 1}, "expected a text in quotes, found '1'"),
              ({"chains": {"IPv6 0 -> 17": 1, "other": 2**64 - 1}}, "don't add up")]
    for name in ["x", "EtherType", "EtherType 806", "EtherType 0x806", "EtherType 0x00806", "EtherType 0x10000", "LLC 0xAA",
                 "LLC 0x100", "PPP 0x-021", "family 07", "family -1", "family 4294967296", "IP 0x0800", "NLPID 0x 8"]:
        tables.append(({"other_frames": 1, "other_protocols": {name: 1}}, "not a protocol"))
    cases += [(good(**parts), words) for parts, words in tables]
    twice = text.replace(b"{\"IPv6 0 -> 17\":1}", b"{\"IPv6 0 -> 17\":1,\"IPv6 0 -> 17\":1}")
    cases += [(twice, "duplicate name in a table"),
              (text.replace(b"{\"17\":1}", b"{\"17\":1,\"17\":1}"), "duplicate name in a table")]
    for content, words in cases:
        refuse(harness, content, words, repr(content[:80]))
    many = {"IPv6 %d,%d -> 17" % (n // 256, n % 256): 1 for n in range(65536)}
    refuse(harness, good(chains=many | {"IPv6 -> 17": 1}), "too many names", "65537 chains")
    refuse(harness, good(chains=many), "don't add up", "65536 chains")
    harness.check("line 3, column 2: " in harness.run("sum", content=text + b"\n\n{x")[2], "position of an error")


def test_versions(harness):
    """Members of a later version with our major number are skipped, wherever the version is."""
    text = good()
    later = b"{\"a\":1,\"b\":{\"c\":2},\"d\":\"text\",\"e\":{}," + good(version="1.7")[1:]
    wanted = harness.run("sum", "--json", content=text)
    harness.equal(wanted[0], 0, "our version")
    harness.equal(harness.run("sum", "--json", content=later), wanted, "a later version")
    counts = json.loads(later)
    last = json.dumps({**{name: value for name, value in counts.items() if name != "version"}, "version": "1.7"}).encode()
    harness.equal(harness.run("sum", "--json", content=last), wanted, "the version comes last")
    harness.equal(json.loads(harness.run("sum", "--json", content=text + later)[1])["packets"], 2, "both versions")
    first = json.loads(good(version="1.0", other_frames=3))
    del first["other_protocols"]
    found = harness.run("sum", "--json", content=json.dumps(first).encode() + good(other_frames=1, other_protocols={"PPP 0xc021": 1}))
    harness.equal(json.loads(found[1])["other_protocols"], {"PPP 0xc021": 1, "other": 3}, "version 1.0")
    harness.equal(harness.run("sum", "--json", content=good(version="1.1")), wanted, "version 1.1")
    third = json.loads(good(version="1.3"))
    del third["mismatched"]
    found = harness.run("sum", "--json", content=json.dumps(third).encode() + good(mismatched=1))
    harness.equal(json.loads(found[1])["mismatched"], 1, "version 1.3")
    refuse(harness, json.dumps({**third, "version": "1.4"}).encode(), "the object has no \"mismatched\"", "version 1.4")


def test_names_in_json(harness):
    """The name of the file is left out of the sum, however long it is and whatever is in it."""
    wanted = harness.run("sum", "--json", content=good())
    for name in ["", "a.pcap", 'a\\b"c\x1b', "\u00e9\U0001f600\udcff", "x" * 5000]:
        for is_ascii in [True, False]:
            text = json.dumps({**json.loads(good()), "file": name}, ensure_ascii=is_ascii).encode(errors="surrogateescape")
            harness.equal(harness.run("sum", "--json", content=text), wanted, name, is_ascii)
    for text, words in [("1", "expected a text in quotes, found '1'"), ('"', "found byte 0x0a"), ('"\\', "found byte 0x0a"),
                        ('"a\\"', "found byte 0x0a"), ('"a","file":"b"', "duplicate name in the object")]:
        refuse(harness, good()[:-1] + b',"file":' + text.encode() + b"\n}", words, text)


def test_largest_counts(harness):
    """Sums stop at 2^64 - 1, and such sums can be added again."""
    most = 2**64 - 1
    text = good(**{name: 2**63 for name in ["packets", "ipv6", "at_payload", "payload_bytes"]}, headers={"0": 2**63},
                chains={"IPv6 0 -> 17": 2**63}, chain_headers={"1": 2**63}, chain_bytes={"8": 2**63},
                payload_numbers={"17": 2**63})
    wanted = {**json.loads(text), **{name: most for name in ["packets", "ipv6", "at_payload", "payload_bytes"]},
              "headers": {"0": most}, "chains": {"IPv6 0 -> 17": most}, "chain_headers": {"1": most},
              "chain_bytes": {"8": most}, "payload_numbers": {"17": most}}
    twice = harness.run("sum", "--json", content=text * 2)
    harness.equal((json.loads(twice[1]), twice[2]), (wanted, ""), "twice")
    harness.equal(harness.run("sum", "--json", content=twice[1] + good() + twice[1]), twice, "sums added again")


def test_damaged(harness):
    """A truncated object is refused. Whatever bytes are changed, the program ends in an orderly way."""
    text = good(faults={"too-short routing": 1})
    draw = random.Random(4)
    for length in range(1, len(text), 7):
        refuse(harness, text[:length], "found the end", "the first %d bytes" % length)
    for _ in range(40):
        changed = bytearray(text)
        for _ in range(draw.choice([1, 1, 2, 5])):
            place = draw.randrange(len(changed))
            changed[place] = draw.choice([0, 34, 44, 48, 58, 123, 125, 255, draw.randrange(256)])
        status, found, errors, _ = harness.run("sum", content=bytes(changed))
        harness.check((status == 0) == (errors == "") and (status == 1) == (found == b""), bytes(changed), status, errors)


def test_bounds(harness):
    """Chains after the first N of `--chains`, and chains of more than 64 headers, are counted as `other`."""
    chains = [[43 if number >> bit & 1 else 60 for bit in range(13)] for number in range(5000)]
    frames = [ethernet(ipv6_chain(numbers)) for numbers in chains]
    path = harness.file(capture(frames))
    found, errors = harness.stat(path)
    harness.equal((set(found["chains"].values()), len(found["chains"]), errors), ({1}, 5000, ""), "5000 chains")
    harness.equal(found["chain_bytes"], {"104": 5000}, "5000 chains")
    again = harness.run("sum", "--json", content=json.dumps(found).encode() * 2)
    harness.equal((set(json.loads(again[1])["chains"].values()), again[2]), ({2}, ""), "5000 chains, twice")
    words = "ipcap: %s: more than 4096 different chains: others are counted as other, see --chains\n"
    status, text, errors, _ = harness.run("stat", "--json", "--chains", "4096", path)
    few = json.loads(text)["chains"]
    harness.equal((status, len(few), few["other"], errors), (0, 4097, 904, words % path), "4096 of 5000 chains")
    first = {"IPv6 %s -> 17" % ",".join(map(str, numbers)) for numbers in chains[:4096]}
    harness.check(few.keys() == first | {"other"}, "the first 4096 chains")
    refuse(harness, json.dumps(found).encode(), "too many names", "5000 chains", "--chains", "4999")
    status, text, errors, _ = harness.run("sum", "--chains=4096", "--json", content=text * 2)
    harness.equal((status, json.loads(text)["chains"]["other"], errors), (0, 1808, words % "standard input"), "4096 chains, twice")
    for count, wanted in [(64, {"IPv6 " + ",".join(["60"] * 64) + " -> 17": 1}), (65, {"other": 1}),
                          (8000, {"other": 1})]:
        found, _ = harness.stat(content=capture([ethernet(ipv6_chain([60] * count))], snap_len=262144))
        harness.equal(found["chains"], wanted, count, "headers")


def test_parts_of_chains(harness):
    """Files that are counted apart are the whole, in whatever memory, unless a table is full: then that file is named."""
    frames = [ethernet(ipv6_chain([43 if number >> bit & 1 else 60 for bit in range(10)])) for number in range(1000)]
    frames = [frame for number, frame in enumerate(frames) for _ in range(1 + number % 3)]
    whole = harness.file(capture(frames))
    parts = [harness.file(capture(frames[at:at + 500])) for at in range(0, len(frames), 500)]
    for chains in ["1", "300", "999", "1000", "65536"]:
        options = ["--json", "--chains", chains]
        wanted = json.loads(harness.run("stat", *options, whole)[1])
        for jobs in ["1", "3"]:
            status, text, errors, _ = harness.run("stat", *options, "-j", jobs, *parts)
            name = {"1": parts[0], "300": "all files", "999": "all files"}.get(chains)
            harness.equal((status, json.loads(text)), (0, wanted), chains, "chains")
            harness.check(errors.startswith("ipcap: %s: more than %s different chains" % (name, chains)) if name else not errors,
                          chains, errors)
    harness.equal(harness.run("stat", "--chains", "0", whole)[0], 2, "no chains")
