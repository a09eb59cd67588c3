#!/usr/bin/env python3
"""Tests of koika.py, each a function. They run by pytest, or all by this script; bench/clients.sh calls it."""
import gc
import os
import re
import signal
import stat
import sys
import tempfile
import warnings

HERE = os.path.dirname(os.path.abspath(__file__))
sys.path.insert(0, HERE)

import koika  # noqa: E402
from koika import Design, Fault, ProgramEnded, Violation  # noqa: E402

EXAMPLES = os.path.join(HERE, "..", "..", "examples")
TYPES = """enum Light : bits 2 { Red = 2'd0, Amber = 2'd1, Stop = 2'd0 }
struct Pixel { x : bits 8, on : bits 1, light : Light }
input at : Pixel;
input row : [Pixel; 3];
input grid : [[bits 2; 2]; 2];
input light : Light;
reg last : Pixel = Pixel::{ x: 8'd1, on: 1'd1, light: Light::Amber };
reg last_row : [Pixel; 3] = [Pixel::{ x: 8'd1, on: 1'd0, light: Light::Red },
    Pixel::{ x: 8'd2, on: 1'd0, light: Light::Amber }, Pixel::{ x: 8'd3, on: 1'd1, light: Light::Red }];
reg last_grid : [[bits 2; 2]; 2] = [[2'd0, 2'd1], [2'd2, 2'd3]];
reg last_light : Light = Light::Red;
table square : bits 1 -> bits 2 { 2'd0, 2'd1 }
host parity : bits 8 -> bits 1;
fun same(v : [bits 2; 2]) : [bits 2; 2] { { v } }
rule keep { write0(last, at); write0(last_row, row); write0(last_grid, grid); write0(last_light, light) }
rule none { abort }
schedule { keep; }
"""
WATCHED = """input k : bits 4;
reg x : bits 4 = 4'd0;
rule a { write0(x, k) }
rule b { if read1(x) != 4'd2 { abort } }
rule c { if read1(x) != 4'd2 { abort } }
assert c;
assert b;
schedule { a; b; c; }
"""


def raised(kind, call, *words, **named):
    """The exception of this kind that a call raises."""
    try:
        call(*words, **named)
    except kind as error:
        return error
    raise AssertionError(f"no {kind.__name__}")


class Script:
    """In a `with`, a program that answers `step` by a shell script, and `print` by a design of one register, x."""

    def __init__(self, text):
        self.text = f"[ $1 = step ] || {{ echo \"reg x : bits 4 = 4'd0 ; schedule {{ }}\"; exit; }}\n{text}"

    def __enter__(self):
        self.room = tempfile.TemporaryDirectory()
        path = os.path.join(self.room.name, "program")
        with open(path, "w", encoding="utf-8") as file:
            file.write("#!/bin/sh\n" + self.text)
        os.chmod(path, os.stat(path).st_mode | stat.S_IXUSR)
        return path

    def __exit__(self, *error):
        self.room.cleanup()


def test_a_run():
    with Design(os.path.join(EXAMPLES, "fifo.koika")) as d:
        assert d.rules == ("take", "move", "put") and list(d.registers) == ["head", "tail", "next", "total"]
        assert d.cycle == 0 and d.row["next"] == 0 and d.row.fired == ()
        row = d.step()
        assert row.fired == ("put",) and row["next"] == 1 and row["tail"].full == 1 and d.cycle == 1 and d.row is row
        assert str(row) == "@1 put head=000 tail=100 next=01 total=0000" and row.stimulus == ""
        assert d.step({"ready": 1}).fired == ("move", "put")
        assert d.step(ready=True).fired == ("take", "move", "put")
        assert dict(d.row)["head"] == {"full": 1, "word": 1} and "head" in d.row and len(d.row) == 4
        assert d.row.stimulus == "ready=1" and d.row.bits("head") == 0x101
        raised(KeyError, lambda: d.row["heads"])
    d.close()
    raised(ValueError, d.step)


def test_types():
    with Design(text=TYPES) as d:
        light = d.enum("Light")
        assert d.row["last"] == {"x": 1, "on": 1, "light": 1} and d.row["last"].light is not None
        assert d.row["last"].light.name == "Amber" and d.row["last"].light == light["Amber"] == 1
        assert [it.x for it in d.row["last_row"]] == [1, 2, 3] and d.row["last_grid"] == ((0, 1), (2, 3))
        assert d.row["last_light"] == light["Red"] and d.row["last_light"].name == "Red"
        pixel = {"x": 255, "on": 0, "light": "Amber"}
        row = d.step(at=pixel, row=[pixel, 0, d.row["last"]], grid=[(3, 2), (1, 0)], light="Light::Amber")
        assert row["last"] == {**pixel, "light": 1} and int(row["last"]) == row.bits("last") == 255 << 3 | 1
        assert row["last_row"][1].x == 0 and row["last_row"][2].on == 1 and row["last_grid"] == ((3, 2), (1, 0))
        row = d.step(at=row["last"].replaced(on=1), light=3)
        assert row["last"].on == 1 and row["last"].x == 255 and row["last_light"].name == "" and row["last_light"] == 3
        assert repr(row["last_light"]) == "Light::?3" and repr(row["last"]).startswith("Pixel::{ x: 255, on: 1, ")
        raised(KeyError, d.step, nothing=1)
        for what in [{"light": 4}, {"light": -1}, {"light": "Blue"}, {"light": "Pixel::Red"}, {"at": {"x": 1}},
                     {"at": {**pixel, "x": 256}}, {"at": {**pixel, "y": 0}}, {"at": 1 << 11}, {"row": [0, 0]},
                     {"grid": [[0, 0], [0, 4]]}]:
            raised(ValueError, d.step, what)
        raised(TypeError, d.step, light=1.0)
        raised(TypeError, d.step, grid="1")
        raised(AttributeError, lambda: d.row["last"].y)
        raised(KeyError, d.enum, "Pixel")
        assert d.step().cycle == 3  # what was wrong ran no cycle


def test_all_examples():
    """Each design's own stimulus gives the same rows, line by line and many lines at once."""
    for name in sorted(os.listdir(EXAMPLES)):
        if name.endswith(".koika"):
            with Design(os.path.join(EXAMPLES, name), stops_at_violation=False) as d:
                lines = d.stimulus + [""] * 3
                one_by_one = [d.send(line).text for line in lines]
            with Design(os.path.join(EXAMPLES, name), stops_at_violation=False) as d:
                assert [row.text for row in d.run(lines)] == one_by_one, name


def test_faults_of_a_design():
    error = raised(Fault, Design, text="reg x : bits 8 = 4'd0;\r\nschedule { }")
    assert (error.number, error.line, error.column, error.cycle) == (23, 1, 18, 0)
    assert error.text == "reg x : bits 8 = 4'd0;"
    assert str(error).endswith("\n    reg x : bits 8 = 4'd0;\n" + " " * 21 + "^")
    error = raised(Fault, Design, text="// é\nreg\tx # bits 8 = 4'd0;")
    assert (error.number, error.line, error.column) == (10, 2, 7) and str(error).endswith("\n       \t  ^")
    assert raised(Fault, Design, text="schedule {").column == 11
    assert raised(Fault, Design, text="schedule { a; }\n%%\nk=1").number == 20
    with tempfile.NamedTemporaryFile("w", suffix=".koika") as file:
        file.write("schedule { a; }\n")
        file.flush()
        error = raised(Fault, Design, file.name)
        assert str(error).startswith(f"{file.name}:1:12: fault 20: a name of the wanted kind")
    raised(FileNotFoundError, Design, os.path.join(EXAMPLES, "none.koika"))
    raised(TypeError, Design)


def test_a_design_of_the_greatest_length():
    most = 1048576 - len("schedule { }\n%%\n")
    with Design(text=" " * most + "schedule { }") as d:
        assert d.step().cycle == 1
    error = raised(Fault, Design, text=" " * most + " schedule { }")
    assert error.number == 40 and (error.line, error.column, error.text) == (0, 0, "")


def test_faults_of_inputs():
    for line, number, column in [("k=16", 32, 1), (" k=1 k=1", 30, 6), ("j=1", 31, 1), ("%%", 30, 1), ("k=é", 30, 1)]:
        d = Design(text=WATCHED)
        d.step(k=3)
        error = raised(Fault, d.send, line)
        assert (error.number, error.line, error.column, error.cycle) == (number, 0, column, 2) and error.text == line
        assert f"the inputs of cycle 2, column {column}: fault {number}: " in str(error)
        raised(ValueError, d.step)
        d.close()
    with Design(text=WATCHED) as d:
        raised(ValueError, d.send, "k=1\nk=2")
        assert d.step().cycle == 1
    d = Design(text=WATCHED)
    rows = []
    error = raised(Fault, lambda: rows.extend(d.run(["k=1"] * 300 + ["k=16"] + ["k=1"] * 500)))
    assert error.cycle == 301 and d.cycle == 300 and error.text == "k=16"
    d = Design(text=WATCHED)
    assert raised(Fault, d.send, " " * 1048577).number == 40 and d.cycle == 0


def test_violations():
    with Design(text=WATCHED) as d:
        d.step(k=1)
        error = raised(Violation, d.step, k=2)
        assert error.violated == {"c": 2, "b": 2} and error.row is d.row and d.row["x"] == 2
        assert str(error).startswith("violated c at 2\nviolated b at 2\n    inputs: k=2\n    @2 a,b,c x=2")
        assert d.step(k=2).cycle == 3 and d.violated == error.violated  # known already
    d = Design(text=WATCHED, stops_at_violation=False)
    assert [row["x"] for row in d.run({"k": k} for k in (1, 2, 2))] == [1, 2, 2]
    error = raised(Violation, d.close)
    assert error.violated == {"c": 2, "b": 2} and error.row is None
    d.close()
    # One that nobody saw.
    d = Design(text=WATCHED)
    for row in d.run(["k=1", "k=2"]):
        break
    assert row.cycle == 1 and d.cycle == 2
    assert raised(Violation, d.close).violated == {"c": 2, "b": 2}
    # An exception of the test itself isn't hidden.
    def fails():
        with Design(text=WATCHED, stops_at_violation=False) as d:
            d.step(k=2)
            raise ZeroDivisionError
    raised(ZeroDivisionError, fails)


def test_ends_early():
    for script, status in [("exit 5", 5), ("echo '@0 - x=0'; exec <&-; exit 0", 0), ("kill -9 $$", -9), ("echo x", 0),
                           ("echo usage: none; exit 1", 1), ("cat; exit 3", 3), ("printf '@0 -'; exit 0", 0)]:
        with Script(script) as program:
            error = raised(ProgramEnded, lambda: Design(text=WATCHED, program=program).step())
            assert error.status == status, (script, error)
    with Script("echo '@0 - x=0'; exec sleep 1000") as program:
        d = Design(text=WATCHED, program=program)
        os.kill(d._pipes._process.pid, signal.SIGTERM)
        assert raised(ProgramEnded, d.step).status == -signal.SIGTERM
    for script in ["exit 0", "echo reg; exit 0", "echo reg x : none; exit 0"]:
        with Script("") as program:
            with open(program, "w", encoding="utf-8") as file:
                file.write("#!/bin/sh\n" + script)
            assert raised(ProgramEnded, Design, text=WATCHED, program=program).status == 0
    raised(FileNotFoundError, Design, text=WATCHED, program="/none")


def test_no_answer():
    with Script("echo '@0 - x=0'; exec sleep 1000") as program:
        d = Design(text=WATCHED, program=program, timeout=3)
        raised(TimeoutError, d.step)
        raised(ValueError, d.step)
    with Script("exec sleep 1000") as program:
        raised(TimeoutError, Design, text=WATCHED, program=program, timeout=3)


def test_other_last_lines():
    for script in ["echo violated b at 1", "echo", "exit 4"]:
        with Script(f"echo '@0 - x=0'; cat > /dev/null; {script}") as program:
            raised(ProgramEnded, Design(text=WATCHED, program=program).close)


def test_much():
    """Long lines, long rows, and many of both before any is read."""
    wide = 128
    registers = "".join(f"reg r{k} : bits {wide} = {wide}'d{k};\n" for k in range(256))
    text = f"input k : bits {wide};\n{registers}rule a {{ write0(r7, k) }}\nschedule {{ a; }}\n"
    with Design(text=text) as d:
        assert len(d.row) == 256 and d.row["r255"] == 255
        value = (1 << wide) - 1
        assert d.step(k=value)["r7"] == value
        assert d.send(" " * 1000000 + "k=0x" + "0" * 10000 + "5")["r7"] == 5
        count = 0
        for row in d.run({"k": k} for k in range(1000)):
            assert row["r7"] == count and row["r8"] == 8
            count += 1
        assert count == 1000 and d.cycle == 1002
        for row in d.run([" " * 4000 + "k=1"] * 300):
            pass
        assert d.cycle == 1302


def test_record():
    with tempfile.TemporaryDirectory() as room:
        path = os.path.join(room, "stimulus")
        with Design(text=WATCHED, record=path) as d:
            d.step(k=1)
            d.step()
            list(d.run(["k=3", {"k": 4}]))
        with open(path, encoding="utf-8") as file:
            assert file.read() == "k=1\n\nk=3\nk=4\n"
        d = Design(text=WATCHED, record=path)
        raised(Violation, d.step, k=2)
        d.close()
        with open(path, encoding="utf-8") as file:
            assert file.read() == "k=2\n"
        raised(OSError, Design, text=WATCHED, record=room)


def open_files():
    return len(os.listdir("/proc/self/fd"))


def test_all_is_closed():
    """No open file, no process and no warning is left, however a run ends."""
    gc.collect()
    before = open_files()
    with warnings.catch_warnings():
        warnings.simplefilter("error")
        for test in (test_a_run, test_faults_of_a_design, test_faults_of_inputs, test_violations, test_ends_early,
                     test_no_answer, test_other_last_lines, test_record):
            test()
            gc.collect()
            assert open_files() == before, test.__name__
    raised(ChildProcessError, os.waitpid, -1, os.WNOHANG)


def test_meanings():
    """What a fault means is what docs/FAULTS.md says."""
    with open(os.path.join(HERE, "..", "..", "docs", "FAULTS.md"), encoding="utf-8") as page:
        said = dict(re.findall(r"^\| (\d+) \| ([^|]*) \|", page.read(), re.MULTILINE))
    for number, meaning in koika.MEANINGS.items():
        assert said[str(number)] == meaning or number == 40, (number, said[str(number)], meaning)
    left = {int(number) for number in said} - set(koika.MEANINGS)
    assert not {number for number in left if 10 <= number <= 47}, left


def main():
    for name in sys.argv[1:] or [name for name in globals() if name.startswith("test_")]:
        globals()[name]()
        print(f"{name[5:].replace('_', ' ')}: right", flush=True)


if __name__ == "__main__":
    main()
