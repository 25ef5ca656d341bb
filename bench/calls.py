"""The workloads of bench_line by embed/bsc.py, for bench/calls: prints the number of events and their nanoseconds.

    python3 calls.py polls TERMINALS EVENTS sent|octets
    python3 calls.py texts TERMINALS VISITS sent|octets"""

import sys
import time

import bsc

RECORDS = 7
TRANSMISSIONS = 8


def address(letter: str, number: int) -> bytes:
    return bytes([ord(letter) + number // 16, ord("0") + number % 16])


def line_of(count: int) -> bsc.Line:
    terminals = [bsc.Addresses(address("A", number), [address("a", number)]) for number in range(count)]
    return bsc.Line(bsc.Setup(), terminals, range(count))


def carry_octets(line: bsc.Line) -> None:
    line.carry(line.pending().octets)


def polls(line: bsc.Line, carry, events: int) -> int:
    line.silence()
    started = time.perf_counter_ns()
    for _ in range(events):
        carry(line)
    return time.perf_counter_ns() - started


def texts(line: bsc.Line, carry, count: int, visits: int) -> int:
    records = [b"%02d" % number + b"-" * 53 for number in range(2 * RECORDS)]

    def offer(terminal: int) -> None:
        for record in records[:RECORDS]:
            line.offer_at(terminal, record)
        for record in records[RECORDS:]:
            line.offer_for(terminal, record)

    offer(0)
    line.silence()
    started = time.perf_counter_ns()
    for visit in range(visits):
        for _ in range(TRANSMISSIONS - 1):
            carry(line)
        offer((visit + 1) % count)
        carry(line)
    taken = time.perf_counter_ns() - started
    assert sum(line.arrivals_from(number) for number in range(count)) == visits * RECORDS
    return taken


def main(name: str, terminals: str, number: str, how: str) -> None:
    count, number = int(terminals), int(number)
    carry = bsc.Line.carry_sent if how == "sent" else carry_octets
    with line_of(count) as line:
        if name == "polls":
            print(number, "events,", polls(line, carry, number), "ns")
        else:
            print(number * (TRANSMISSIONS + 2 * RECORDS), "events,", texts(line, carry, count, number), "ns")


if __name__ == "__main__":
    main(*sys.argv[1:])
