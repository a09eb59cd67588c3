#!/usr/bin/env python3
"""Drives `step` over two pipes, without the client, and compares it with `sim`; bench/clients.sh calls it.

    clients.py PROGRAM LAB_PROGRAM

PROGRAM answers `sim`, LAB_PROGRAM `step`. Each row has to come before the next line is sent, nothing else may come, and
a thousand cycles of a counter, driven line by line, take less than a second.
"""
import os
import random
import resource
import select
import subprocess
import sys
import time

EXAMPLES = os.path.join(os.path.dirname(os.path.abspath(__file__)), "..", "examples")
PATIENCE = 60  # seconds for an answer
MOST_SECONDS = 1.0  # for a thousand cycles
TRIES = 5
SMALL = ("input k : bits 4; reg x : bits 4 = 4'd0; rule a { write0(x, k) } "
         "rule b { if read1(x) != 4'd2 { abort } } assert b; schedule { a; b; }")


class Step:
    """A program that answers `step`. What it writes is read only when it is asked for."""

    def __init__(self, lab):
        self.process = subprocess.Popen([lab, "step"], stdin=subprocess.PIPE, stdout=subprocess.PIPE, bufsize=0,
                                        env={**os.environ, "KOIKA_EXPLAIN": "0"})
        self.unread = b""

    def send(self, text):
        self.process.stdin.write(text.encode())

    def line(self):
        """The next line, which has to come though nothing more is sent; or what there is at the end."""
        while b"\n" not in self.unread:
            assert select.select([self.process.stdout], [], [], PATIENCE)[0], "a line doesn't come before the next read"
            piece = os.read(self.process.stdout.fileno(), 1 << 16)
            if not piece:
                break
            self.unread += piece
        line, feed, self.unread = self.unread.partition(b"\n")
        return (line + feed).decode()

    def must_wait(self, seconds=0.0):
        """Whether nothing comes before the next line is sent."""
        assert not self.unread, f"more than a row: {self.unread!r}"
        assert not select.select([self.process.stdout], [], [], seconds)[0], "more than a row comes"

    def end(self):
        """Ends the input; the rest of the output, and the exit status."""
        self.process.stdin.close()
        rest = self.unread + self.process.stdout.read()
        self.process.stdout.close()
        return rest.decode(), self.process.wait()


def run_of(program, cycles, source):
    """What `sim` writes, as lines."""
    done = subprocess.run([program, "sim", "--cycles", str(cycles)], input=source.encode(), stdout=subprocess.PIPE,
                          env={**os.environ, "KOIKA_EXPLAIN": "0"}, check=False)
    return done.stdout.decode().splitlines(keepends=True)


def parts_of(path):
    """A design, and the lines of its stimulus."""
    with open(path, encoding="utf-8") as file:
        design, _, stimulus = file.read().partition("%%\n")
    return design, stimulus.splitlines()


def same(what, found, wanted):
    assert found == wanted, f"{what}: {found!r}, and not {wanted!r}"


def line_by_line(program, lab):
    """Each example: the rows are those of `sim`, each is there before the next line is sent, and no other comes."""
    chance = random.Random(1)
    for name in sorted(os.listdir(EXAMPLES)):
        if not name.endswith(".koika"):
            continue
        design, lines = parts_of(os.path.join(EXAMPLES, name))
        lines = (lines + [""] * 8)[:40]
        wanted = run_of(program, len(lines), design + "%%\n" + "".join(line + "\n" for line in lines))
        step = Step(lab)
        # The design comes in pieces, and the first row waits for the line feed after `%%`.
        cut = chance.randrange(len(design))
        step.send(design[:cut])
        step.must_wait(0.05)
        step.send(design[cut:] + "%%")
        step.must_wait(0.05)
        step.send("\n")
        same(f"{name}, the first row", step.line(), wanted[0])
        for cycle, line in enumerate(lines, 1):
            step.send(line)
            step.must_wait(0.002)
            step.send("\n")
            same(f"{name}, row {cycle}", step.line(), wanted[cycle])
        step.must_wait(0.05)
        same(f"{name}, the end", step.end(), ("".join(wanted[len(lines) + 1:]), 0))
    print("the rows of all examples are those of `sim`, and each came before the next line was sent")


def small_sources(lab):
    """Small sources with what is written for them, and the status."""
    for source, wanted, status in [
        (SMALL + "\n%%\nk=2\n\nk=3", "@0 - x=0\n@1 a,b x=2\n@2 a x=0\n@3 a x=3\nviolated b at 1\n", 0),
        (SMALL + "\n%%\nk=2\n\nk=16", "@0 - x=0\n@1 a,b x=2\n@2 a x=0\nfault 32 at 5:1\n", 2),
        (SMALL + "\n%%\n", "@0 - x=0\n", 0),
        (SMALL + "\n%%", "@0 - x=0\n", 0),
        (SMALL, "@0 - x=0\n", 0),
        (SMALL + "\r\n%%\r\nk=2\r\n\r\n", "@0 - x=0\n@1 a,b x=2\n@2 a x=0\nviolated b at 1\n", 0),
        (SMALL + "\n%%\nk=1\n%%\nk=1\n", "@0 - x=0\n@1 a x=1\nfault 30 at 4:1\n", 2),
        (SMALL + "\n%%\nk=1 k=2\nk=1\n", "@0 - x=0\nfault 30 at 3:5\n", 2),
        (SMALL + "\n%%\nj=1\n", "@0 - x=0\nfault 31 at 3:1\n", 2),
        ("schedule { a; }\n%%\nk=1\n", "fault 20 at 1:12\n", 2),
        ("", "fault 11 at 1:1\n", 2),
    ]:
        done = subprocess.run([lab, "step"], input=source.encode(), stdout=subprocess.PIPE, check=False,
                              env={**os.environ, "KOIKA_EXPLAIN": "0"})
        same(f"{source[-20:]!r}", (done.stdout.decode(), done.returncode), (wanted, status))
    step = Step(lab)
    step.send(SMALL + "\n%%\nk=16\n")
    same("a fault", (step.line(), step.line()), ("@0 - x=0\n", "fault 32 at 3:1\n"))
    same("a fault ends the run while the input is open", step.process.wait(PATIENCE), 2)
    step.end()
    print("small sources: as they have to be")


def thousand_cycles(lab):
    """How long a thousand cycles of the counter take, each line sent when the row before has come."""
    design, _ = parts_of(os.path.join(EXAMPLES, "counter.koika"))
    taken, processor = [], []
    for _ in range(TRIES):
        before = resource.getrusage(resource.RUSAGE_CHILDREN)
        step = Step(lab)
        step.send(design + "%%\n")
        step.line()
        start = time.monotonic()
        for cycle in range(1, 1001):
            step.send("\n")
            same("the counter", step.line(), f"@{cycle} incr count={cycle % 256:02x}\n")
        taken.append(time.monotonic() - start)
        same("the counter's end", step.end(), ("", 0))
        after = resource.getrusage(resource.RUSAGE_CHILDREN)
        processor.append(after.ru_utime + after.ru_stime - before.ru_utime - before.ru_stime)
        if taken[-1] < MOST_SECONDS:
            break
    print(f"a thousand cycles of the counter, line by line: {min(taken):.3f} seconds")
    if min(taken) >= MOST_SECONDS and os.getloadavg()[0] > os.cpu_count():
        # Others have the processors: then what the program computed counts.
        print(f"the machine is busy; {min(processor):.3f} seconds of a processor, from start to end")
        taken = processor
    assert min(taken) < MOST_SECONDS, f"they have to take less than {MOST_SECONDS}"


def main():
    program, lab = sys.argv[1:]
    small_sources(lab)
    line_by_line(program, lab)
    thousand_cycles(lab)


if __name__ == "__main__":
    main()
