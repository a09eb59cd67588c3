#!/usr/bin/env python3
"""Compares what a reader of VCD found in a dump with the run; bench/waves.sh calls it.

    waves.py stimulus DESIGN CIRCUIT                           writes its stimulus, and random lines after it
    waves.py compare CYCLES CIRCUIT STIMULUS REPORT CHANGES    says what differs; the status is 1 if anything does

CIRCUIT is what `compile` writes of the design: it has the names, in order, and the widths. CHANGES is what GTKWave's
fstminer writes: lines `#TIME NAME BITS`.
"""
import collections
import random
import sys

RANDOM_LINES = 40


def read(path):
    with open(path, encoding="utf-8") as file:
        return file.read()


class Signals:
    """The inputs and registers of a circuit with their widths, and the rules."""

    def __init__(self, circuit):
        widths, self.inputs, self.registers, self.rules = {}, {}, {}, []
        for line in circuit.splitlines():
            number, kind, *words = line.split(" ")
            if kind == "sort":
                widths[number] = int(words[1])
            elif kind == "input":
                self.inputs[words[1]] = widths[words[0]]
            elif kind == "state":
                self.registers[words[1]] = widths[words[0]]
            elif kind == "output":
                self.rules.append(words[1])


def stimulus(design, signals):
    """The design's own lines, and random ones: an input is left out, or has few bits, or any."""
    chance = random.Random(design)
    sys.stdout.write(read(design).partition("\n%%\n")[2])
    for _ in range(RANDOM_LINES):
        said = []
        for name, width in signals.inputs.items():
            bits = chance.choice([0, min(width, 2), width, width])
            if bits:
                said.append(f"{name}={chance.getrandbits(bits)}")
        print(" ".join(said))


def wanted_of(cycles, signals, lines, report):
    """What each signal is at each time: a dictionary by time of dictionaries by name. Bits are a text, `x` unknown."""
    rows = [line.split(" ") for line in report.splitlines() if line.startswith("@")]
    assert len(rows) == cycles + 1
    wanted = {}
    for at, row in enumerate(rows):
        is_last = at == cycles
        values = {}
        given = dict(word.split("=") for word in lines[at].split()) if at < len(lines) else {}
        for name, width in signals.inputs.items():
            bits = format(int(given.get(name, "0"), 0), f"0{width}b")
            values[f"design.inputs.{name}"] = "x" * width if is_last else bits
        assert len(row) == 2 + len(signals.registers)
        for (name, width), word in zip(signals.registers.items(), row[2:]):
            assert word.startswith(name + "=")
            values[f"design.registers.{name}"] = format(int(word[len(name) + 1:], 16), f"0{width}b")
        for name in signals.rules:
            fires = not is_last and name in rows[at + 1][1].split(",")
            values[f"design.rules.{name}"] = "x" if is_last else str(int(fires))
        wanted[10 * at] = {**values, "design.clk": "1"}
        wanted[10 * at + 5] = {**values, "design.clk": "0"}
    return wanted


def compare(wanted, changes):
    """Says what differs, or how much was compared; returns whether anything differs."""
    changed = collections.defaultdict(dict)
    for line in changes.splitlines():
        time, name, bits = line.split(" ")
        changed[int(time[1:])][name] = bits
    wrong = [f"something changes at {time}" for time in changed if time not in wanted]
    found = {}
    for time, values in wanted.items():
        found.update(changed[time])
        if set(found) != set(values):
            wrong.append(f"signals at {time}: {sorted(set(found) ^ set(values))}")
        wrong += [f"{name} at {time}: {found.get(name)}, and not {bits}" for name, bits in values.items()
                  if found.get(name) != bits]
    print("\n".join(wrong[:20]) if wrong else f"{len(found)} signals, {len(wanted)} times in the last run")
    return bool(wrong)


def main():
    command, *words = sys.argv[1:]
    signals = Signals(read(words[1]))
    if command == "stimulus":
        stimulus(words[0], signals)
    else:
        wanted = wanted_of(int(words[0]), signals, read(words[2]).splitlines(), read(words[3]))
        sys.exit(compare(wanted, read(words[4])))


if __name__ == "__main__":
    main()
