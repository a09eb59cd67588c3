#!/usr/bin/env python3
"""A test bench of examples/axi_lite.koika, a slave on an AXI4-Lite bus: random masters and a scoreboard.

    python3 examples/testbench/test_axi_lite.py [--seed N] [--cycles N] [--record FILE] [DESIGN]
    pytest examples/testbench/test_axi_lite.py

Each channel to the slave has a driver, which holds an item until it is taken, and pauses at random. The answers wait
for a master that is ready at random. So addresses, data and answers overlap in all ways.

The scoreboard sees what passes on the bus, and nothing inside the slave. It has the memory after each write, and knows
of each read which of these memories it may be from.
"""
import argparse
import os
import random
import sys

HERE = os.path.dirname(os.path.abspath(__file__))
sys.path.insert(0, os.path.join(HERE, "..", "..", "clients", "python"))

from koika import Design, KoikaError  # noqa: E402

DESIGN = os.path.join(HERE, "..", "axi_lite.koika")
BYTES = 16  # the slave's memory, in words of 4

# How often, for each channel, an item begins or the master is ready.
QUICK = {"aw": 1, "w": 1, "b": 1, "ar": 1, "r": 1}
SLOW_MASTER = {"aw": 1, "w": 1, "b": 0.2, "ar": 1, "r": 0.2}


OKAY, SLAVE_ERROR = 0, 2  # the standard's numbers


def response_for(address):
    return OKAY if address < BYTES else SLAVE_ERROR


class Sender:
    """Drives a channel to the slave: an item stays on the bus until it is taken."""

    def __init__(self, make):
        self.make = make
        self.item = None
        self.begun = 0  # how many items were on the bus

    def begin(self):
        if self.item is None:
            self.item = self.make()
            self.begun += 1

    def taken(self):
        assert self.item is not None, "the slave takes what isn't offered"
        item, self.item = self.item, None
        return item


class Scoreboard:
    """What passed on the bus, and which answers are right."""

    def __init__(self):
        self.memories = [[0] * (BYTES // 4)]  # the first one, and that after each write whose two halves were taken
        self.addresses, self.data = [], []  # of all writes
        self.answered = 0  # how many writes were
        self.reads = []  # the open reads: the address, and the first memory that it may be from
        self.seen = 0  # the memory that the last read was from: later reads are from no older one

    def take_address(self, address):
        self.addresses.append(address)
        self.write()

    def take_data(self, data, strobe):
        self.data.append((data, strobe))
        self.write()

    def write(self):
        """Makes the memory after a write, once its address and its data were taken."""
        whole = len(self.memories) - 1
        if whole == min(len(self.addresses), len(self.data)):
            return
        address, (data, strobe) = self.addresses[whole], self.data[whole]
        memory = list(self.memories[-1])
        if address < BYTES:
            mask = sum(0xFF << 8 * byte for byte in range(4) if strobe >> byte & 1)
            memory[address // 4] = memory[address // 4] & ~mask | data & mask
        self.memories.append(memory)

    def take_read(self, address):
        # Writes that were answered before are seen.
        self.reads.append((address, self.answered))

    def answer_write(self, response):
        assert self.answered < len(self.memories) - 1, "a write is answered before its address and data were taken"
        address = self.addresses[self.answered]
        self.answered += 1
        assert response == response_for(address), f"the write at {address:#x} is answered with the response {response}"

    def answer_read(self, response, data):
        assert self.reads, "an answer comes, and no read is open"
        address, first = self.reads.pop(0)
        assert response == response_for(address), f"the read at {address:#x} is answered with the response {response}"
        first = max(first, self.seen)
        values = [memory[address // 4] if address < BYTES else 0 for memory in self.memories[first:]]
        wanted = " or ".join(sorted({f"{value:#x}" for value in values}))
        assert data in values, f"the read at {address:#x} gives {data:#x}, and not {wanted}"
        self.seen = first + values.index(data)

    def is_done(self):
        return not self.reads and self.answered == len(self.addresses) == len(self.data)


class Bench:
    """A slave with its masters and the scoreboard."""

    def __init__(self, design, seed, record=None):
        self.chance = random.Random(seed)
        self.senders = {"aw": Sender(self.address), "w": Sender(self.word), "ar": Sender(self.address)}
        self.board = Scoreboard()
        self.design = Design(design, record=record)

    def address(self):
        """Mostly one of the slave's own."""
        return self.chance.randrange(BYTES if self.chance.random() < 0.9 else 256)

    def word(self):
        return self.chance.getrandbits(32), self.chance.randrange(16)

    def cycle(self, rates):
        """Drives a cycle, and shows the scoreboard what passes in it."""
        for channel, sender in self.senders.items():
            if self.chance.random() < rates[channel]:
                sender.begin()
        inputs = {"bready": self.chance.random() < rates["b"], "rready": self.chance.random() < rates["r"]}
        address, data, read = (self.senders[channel].item for channel in ("aw", "w", "ar"))
        if address is not None:
            inputs.update(awvalid=1, awaddr=address)
        if data is not None:
            inputs.update(wvalid=1, wdata=data[0], wstrb=data[1])
        if read is not None:
            inputs.update(arvalid=1, araddr=read)
        before = self.design.row
        row = self.design.step(inputs)
        try:
            self.look(before, inputs, row)
        except AssertionError as error:
            raise AssertionError(f"cycle {row.cycle}: {error}\n    inputs: {row.stimulus}\n    {row}") from None

    def look(self, before, inputs, row):
        """What passes in a cycle: answers that the slave shows before it, if the master is ready; what it takes."""
        for valid, ready, values in (("bvalid", "bready", ["bresp"]), ("rvalid", "rready", ["rresp", "rdata"])):
            if before[valid] and not inputs[ready]:
                assert row[valid], f"{valid} falls before the answer is taken"
                for value in values:
                    assert row[value] == before[value], f"{value} changes before the answer is taken"
        if before["rvalid"] and inputs["rready"]:
            self.board.answer_read(int(before["rresp"]), before["rdata"])
        if "take_ar" in row.fired:
            self.board.take_read(self.senders["ar"].taken())
        if before["bvalid"] and inputs["bready"]:
            self.board.answer_write(int(before["bresp"]))
        if "take_aw" in row.fired:
            self.board.take_address(self.senders["aw"].taken())
        if "take_w" in row.fired:
            self.board.take_data(*self.senders["w"].taken())

    def drain(self):
        """Gives each address its data, each data its address, and waits for all answers."""
        address, data = self.senders["aw"], self.senders["w"]
        for _ in range(30):
            self.cycle({"aw": address.begun < data.begun, "w": data.begun < address.begun, "b": 1, "ar": 0, "r": 1})
            if self.board.is_done() and all(sender.item is None for sender in self.senders.values()):
                return
        raise AssertionError(f"cycle {self.design.cycle}: answers are missing\n    {self.design.row}")

    def read_all(self):
        for address in range(0, BYTES, 4):
            self.senders["ar"].item = address
            self.senders["ar"].begun += 1
            self.drain()

    def run(self, phases):
        """Runs so many cycles at such rates, one after the other; before and after that it reads all memory."""
        with self.design:
            self.read_all()
            for cycles, rates in phases:
                for _ in range(cycles):
                    self.cycle(rates)
                self.drain()
            self.read_all()
        return f"{self.design.cycle} cycles, {self.board.answered} writes, {self.senders['ar'].begun} reads"


def test_without_a_pause():
    Bench(DESIGN, seed=1).run([(100, QUICK)])


def test_slow_masters():
    Bench(DESIGN, seed=2).run([(150, SLOW_MASTER)])


def test_random_rates():
    bench = Bench(DESIGN, seed=3)
    bench.run(random_phases(bench.chance, 400))


def random_phases(chance, cycles):
    """Phases of 50 cycles, each with rates of its own."""
    return [(min(50, cycles - start), {channel: chance.choice([0.1, 0.5, 0.9]) for channel in QUICK})
            for start in range(0, cycles, 50)]


def main():
    parser = argparse.ArgumentParser(description="Drives a slave on an AXI4-Lite bus by random masters.")
    parser.add_argument("design", nargs="?", default=DESIGN)
    parser.add_argument("--seed", type=int, default=1)
    parser.add_argument("--cycles", type=int, default=400)
    parser.add_argument("--record", metavar="FILE", help="a file that gets the inputs, for `why` and `waves`")
    given = parser.parse_args()
    try:
        bench = Bench(given.design, given.seed, given.record)
        print(f"seed {given.seed}: {bench.run(random_phases(bench.chance, given.cycles))}")
    except (AssertionError, KoikaError) as error:
        print(f"seed {given.seed}: {error}")
        sys.exit(1)


if __name__ == "__main__":
    main()
