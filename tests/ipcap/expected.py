"""What `ipcap stat --json` prints, as tests expect it."""

COUNTS = ["other_frames", "truncated_frames", "packets", "without_header", "ipv4", "ipv6", "at_payload", "at_later_fragment",
          "at_truncated_header", "at_fault", "atomic_fragments", "first_fragments", "middle_fragments", "last_fragments",
          "incomplete", "payload_bytes", "mismatched"]
TABLES = ["other_protocols", "chains", "chain_headers", "chain_bytes", "headers", "payload_numbers", "later_fragment_numbers",
          "truncated_headers", "faults"]


def statistics(**parts):
    """Returns the expected output of `stat`: the given parts, and 0 or empty for the rest."""
    return {"version": "1.4", **dict.fromkeys(COUNTS, 0), **{name: {} for name in TABLES}, **parts}


def fragments(found):
    """Returns how many fragments there are. Atomic ones are whole packets."""
    return found["first_fragments"] + found["middle_fragments"] + found["last_fragments"]
