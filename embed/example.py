"""A test bench: a line on which every fifth transmission is lost and every fifth damaged still delivers each record
once and in order. Run it after `make` as `python3 example.py`."""

import random

import bsc

TERMINALS = [bsc.Addresses(b"A", [b"a"]), bsc.Addresses(b"B", [b"b"])]
RECORDS = [b"CARD %02d" % number for number in range(50)]


def damaged(octets: bytes, chance: random.Random) -> bytes:
    """The octets with one bit inverted."""
    place = chance.randrange(len(octets))
    return octets[:place] + bytes([octets[place] ^ 1 << chance.randrange(8)]) + octets[place + 1:]


with bsc.Line(bsc.Setup(tries=2), TERMINALS, [0, 1]) as line:
    chance = random.Random(1)
    for record in RECORDS:
        line.offer_at(0, record)
        line.offer_for(1, record)
    while line.sending_from(0).known < len(RECORDS) or line.sending_to(1).known < len(RECORDS):
        pending, fate = line.pending(), chance.randrange(5)
        if pending is None:
            line.silence()
        elif fate == 0:
            line.lose()
        else:
            line.carry(damaged(pending.octets, chance) if fate == 1 else pending.octets)
        if line.sending_from(0).in_doubt:
            line.release_from(0)
        if line.sending_to(1).in_doubt:
            line.release_to(1)
    assert line.records_from(0) == RECORDS and line.records_to(1) == RECORDS and line.trusted()
    assert line.records_from(1) == [] and line.records_to(0) == []
    print(f"{len(RECORDS)} records arrived each way, once and in order")
