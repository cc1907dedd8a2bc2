"""Prints how many plain packets a second Python counts, filters and dissects: one by one, together, and with four threads."""

import threading
import time

import numpy

import wolfaren

COUNT, LEN, SINGLE, RUNS = 1_000_000, 80, 20_000, 5


def packets():
    """Returns a buffer of UDP packets of 80 bytes over IPv6 and IPv4 in turn, and their offsets and lengths."""
    ipv6 = bytes([0x60, 0, 0, 0, 0, LEN - 40, 17, 64]) + bytes(LEN - 8)
    ipv4 = bytes([0x45, 0, 0, LEN, 0, 0, 0, 0, 64, 17]) + bytes(LEN - 10)
    return (ipv6 + ipv4) * (COUNT // 2), numpy.arange(COUNT) * LEN, numpy.full(COUNT, LEN)


def rate_of(count, run):
    """Returns how many packets a second a run takes."""
    began = time.perf_counter()
    run()
    return count / (time.perf_counter() - began)


def in_threads(call, arguments, threads):
    """Makes a call in each of several threads."""
    running = [threading.Thread(target=call, args=arguments) for _ in range(threads)]
    for thread in running:
        thread.start()
    for thread in running:
        thread.join()


def one_by_one(call, buffer):
    """Makes a call for each of some packets."""
    for offset in range(0, SINGLE * LEN, LEN):
        call(buffer[offset:offset + LEN])


def main():
    buffer, offsets, lengths = arguments = packets()
    udp, counted = wolfaren.Filter("udp and not fault"), wolfaren.Statistics()
    calls = {"count": (counted.add, lambda *it: wolfaren.Statistics().add_many(*it)),
             "filter": (udp.matches, udp.matches_many), "dissect": (wolfaren.dissect, wolfaren.dissect_many)}
    for name, (one, many) in calls.items():
        runs = [(SINGLE, lambda: one_by_one(one, buffer)), (COUNT, lambda: many(*arguments)),
                (4 * COUNT, lambda: in_threads(many, arguments, 4))]
        turns = [[rate_of(*it) for it in runs] for _ in range(RUNS)]
        single, together, four = (max(it) / 1e6 for it in zip(*turns))
        print(f"Python: {name:8} {single:5.2f} million a second one by one, {together:6.1f} together: {together / single:.0f} times, "
              f"{four:6.1f} with four threads")


if __name__ == "__main__":
    main()
