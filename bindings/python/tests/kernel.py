"""Sends packets to this machine's kernel, in a network namespace of its own, and prints what a socket receives.

Reads a line of JSON: a list of lists of packets in hexadecimal digits, for UDP port 9 of ::1 or 127.0.0.1. Prints for each
list the payload that arrived, or null. Run by `unshare --net`.
"""

import fcntl
import json
import os
import socket
import struct
import sys

INTERFACE_UP, SET_FLAGS, RAW, PORT = 1, 0x8914, 255, 9


def received(receiver, address):
    """Returns the last payload that arrived before a datagram without data, which is sent now, or `None`."""
    receiver.sendto(b"", (address, PORT))
    payload = None
    while data := receiver.recv(65536):
        payload = data.hex()
    return payload


def main():
    # on one processor, packets arrive in the order in which they are sent
    os.sched_setaffinity(0, {min(os.sched_getaffinity(0))})
    sides = {}
    for family, version, address in ((socket.AF_INET, 4, "127.0.0.1"), (socket.AF_INET6, 6, "::1")):
        sender, receiver = socket.socket(family, socket.SOCK_RAW, RAW), socket.socket(family, socket.SOCK_DGRAM)
        if version == 4:
            fcntl.ioctl(sender, SET_FLAGS, struct.pack("16sh22x", b"lo", INTERFACE_UP))
        receiver.bind((address, PORT))
        receiver.settimeout(10)
        sides[version] = sender, receiver, address
    answers = []
    for packets in json.load(sys.stdin):
        sender, receiver, address = sides[bytes.fromhex(packets[0])[0] >> 4]
        for it in packets:
            sender.sendto(bytes.fromhex(it), (address, 0))
        answers.append(received(receiver, address))
    json.dump(answers, sys.stdout)


if __name__ == "__main__":
    main()
