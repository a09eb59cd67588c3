#!/usr/bin/env python3
"""A test bench of examples/uart.koika, a serial transmitter, with a model on the level of bits.

    python3 examples/testbench/test_uart.py [--seed N] [--cycles N] [--record FILE] [DESIGN]
    pytest examples/testbench/test_uart.py

Two things look at the wire, and neither knows the design's registers but `line`:

- `Line` says what the level of the wire has to be in each cycle, and when a byte is taken;
- `Receiver` looks at the wire alone, finds start bits, and puts bytes together. They have to be those that were taken.
"""
import argparse
import collections
import os
import random
import sys

HERE = os.path.dirname(os.path.abspath(__file__))
sys.path.insert(0, os.path.join(HERE, "..", "..", "clients", "python"))

from koika import Design, KoikaError  # noqa: E402

DESIGN = os.path.join(HERE, "..", "uart.koika")
BIT = 2  # cycles


class Line:
    """The wire of a transmitter: a start bit 0, eight bits from the lowest on, a stop bit 1 and a cycle to idle."""

    def __init__(self):
        self.levels = collections.deque()

    def cycle(self, send, data):
        """Whether the byte is taken in this cycle, and the level after it."""
        taken = bool(send) and not self.levels
        if taken:
            bits = [0] + [data >> index & 1 for index in range(8)] + [1]
            self.levels.extend(bit for bit in bits for _ in range(BIT))
            self.levels.append(1)
        return taken, self.levels.popleft() if self.levels else 1


class Receiver:
    """Reads the wire as a receiver does: each bit in its last cycle, from the first level 0 on."""

    def __init__(self):
        self.count = 0  # cycles since the start bit began; 0 while the wire is idle
        self.bits = []
        self.received = []

    def cycle(self, level):
        if self.count == 0 and level == 1:
            return
        self.count += 1
        if self.count % BIT:
            return
        self.bits.append(level)
        if len(self.bits) < 10:
            return
        start, *bits, stop = self.bits
        assert start == 0, "a start bit that isn't 0 for all its cycles"
        assert stop == 1, "a stop bit that isn't 1"
        self.received.append(sum(bit << index for index, bit in enumerate(bits)))
        self.count, self.bits = 0, []


def drive(design, offers, record=None):
    """Offers a byte or nothing in each cycle, then waits for the last one; returns the bytes that were taken."""
    line, receiver, taken = Line(), Receiver(), []
    with Design(design, record=record) as d:
        for offer in offers + [None] * 11 * BIT:
            row = d.step() if offer is None else d.step(send=1, data=offer)
            is_taken, level = line.cycle(offer is not None, offer)
            is_right = ("accept" in row.fired) == is_taken
            assert is_right, f"cycle {d.cycle}: the model {'takes' if is_taken else 'does not take'} {offer}: {row}"
            assert row["line"] == level, f"cycle {d.cycle}: the wire has to be {level}: {row}"
            receiver.cycle(row["line"])
            if is_taken:
                taken.append(offer)
    assert receiver.received == taken, f"sent {taken}, received {receiver.received}"
    return taken


def offers_of(seed, cycles):
    """Random bytes in random cycles, most of them while the transmitter is busy."""
    chance = random.Random(seed)
    rate = chance.choice([0.03, 0.2, 1])
    return [chance.randrange(256) if chance.random() < rate else None for _ in range(cycles)]


def test_one_after_another():
    """Each level beside each other one, and no pause between two bytes."""
    wanted = [0x00, 0xFF, 0x55, 0xAA, 0x01, 0x80, 0x53]
    assert drive(DESIGN, [byte for byte in wanted for _ in range(10 * BIT + 1)]) == wanted


def test_now_and_then():
    chance = random.Random(1)
    offers = []
    for _ in range(8):
        offers += [None] * chance.randrange(30) + [chance.randrange(256)]
    drive(DESIGN, offers)


def test_any_time():
    drive(DESIGN, offers_of(seed=2, cycles=200))


def main():
    parser = argparse.ArgumentParser(description="Sends random bytes over the wire of a serial transmitter.")
    parser.add_argument("design", nargs="?", default=DESIGN)
    parser.add_argument("--seed", type=int, default=1)
    parser.add_argument("--cycles", type=int, default=300)
    parser.add_argument("--record", metavar="FILE", help="a file that gets the inputs, for `why` and `waves`")
    given = parser.parse_args()
    try:
        taken = drive(given.design, offers_of(given.seed, given.cycles), given.record)
    except (AssertionError, KoikaError) as error:
        print(f"seed {given.seed}: {error}")
        sys.exit(1)
    print(f"seed {given.seed}: {len(taken)} bytes went over the wire")


if __name__ == "__main__":
    main()
