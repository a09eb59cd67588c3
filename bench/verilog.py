#!/usr/bin/env python3
"""What bench/verilog.sh needs besides tools: designs, stimuli, test benches and modules around modules.

    verilog.py forms WIDTH [--no-product]         a design with every operator at a width
    verilog.py stimulus DESIGN MODULE CYCLES      the design's stimulus, then lines by chance up to that many cycles
    verilog.py bench MODULE STIMULUS FOLDER       bench.v and inputs.hex for a module that `verilog --registers` wrote,
                                                  whose rows are those of a report, with a digit for each rule
    verilog.py bench --twin NAME MODULE ..        likewise of a module NAME with the same inputs and registers; no rules
    verilog.py reset MODULE STIMULUS FOLDER       the stimulus, then a cycle with `rst`, then the stimulus again
    verilog.py rows MODULE < REPORT               a report of `sim` as such rows
    verilog.py rows --twin MODULE < REPORT        likewise without rules
    verilog.py bits MODULE                        a module `gate` with the ports of MODULE around the module `bits` of
                                                  an AIGER file with all latches as outputs
    verilog.py made MODULE                        a module `made` around MODULE that writes a row after each cycle in
                                                  which `show` is 1, if the design has no inputs
    verilog.py registers MODULE                   a module `top` around MODULE whose outputs are its registers
    verilog.py cases CRATE FOLDER                 the cases that a program is run on, a folder for each with koika.v, its
                                                  stimulus, the stored rows as `wanted` and the first remark as `title`
"""

import os
import random
import re
import sys
from typing import NamedTuple


class Port(NamedTuple):
    """A port of a module; its name in the design is without the `$` that a reserved word has after it."""

    name: str
    width: int

    def known(self) -> str:
        return self.name.rstrip("$")

    def range(self) -> str:
        return f"[{self.width - 1}:0] "


class Module:
    """The ports of a module that `verilog` wrote."""

    def __init__(self, path: str) -> None:
        with open(path, encoding="ascii") as file:
            lines = file.read().split("\n")
        found = re.fullmatch(r"module (\S+)\((.*)\);", lines[0])
        assert found, "no module"
        self.name = found[1]
        self.ports = found[2].split(", ")
        self.clock = self.ports[0]
        self.inputs: list[Port] = []
        self.rules: list[Port] = []
        self.registers: list[Port] = []
        for line in lines:
            if part := re.fullmatch(r"  (input|output|output reg|reg) (?:\[(\d+):0\] )?([\w$]+)(?: = .*)?;", line):
                port = Port(part[3], int(part[2]) + 1 if part[2] else 1)
                {"input": self.inputs, "output": self.rules}.get(part[1], self.registers).append(port)
        self.reset = self.inputs[1].name if self.inputs[1:] and self.inputs[1].name.rstrip("$") == "rst" else None
        del self.inputs[: 1 if self.reset is None else 2]


def stimulus_of(path: str) -> list[dict[str, int]]:
    with open(path, encoding="ascii") as file:
        lines = file.read().split("\n")
    if "%%" in lines:
        lines = lines[lines.index("%%") + 1 :]
    return [{name: int(value, 0) for name, value in (word.split("=") for word in line.split())} for line in lines[:]]


# ---- test benches -------------------------------------------------------------------------------------------------


def slots_of(inputs: list[Port]) -> tuple[int, list[str]]:
    """How many bits a line of inputs.hex has, and the part of it for each input, in whole digits."""
    at, parts = 0, []
    for port in reversed(inputs):
        parts.append(f"line[{at + port.width - 1}:{at}]")
        at += (port.width + 3) // 4 * 4
    return max(at, 4), parts[::-1]


def write_bench(module: Module, lines: list[dict[str, int]], folder: str, twin: str | None) -> None:
    inputs = ([Port(module.reset, 1)] if module.reset else []) + module.inputs
    bits, parts = slots_of(inputs)
    with open(f"{folder}/inputs.hex", "w", encoding="ascii") as file:
        for line in lines:
            digits = "".join(f"{line.get(port.known(), 0):0{(port.width + 3) // 4}x}" for port in inputs)
            file.write(f"{digits or '0'}\n")
    rules = [] if twin else module.rules
    name = twin or module.name
    with open(f"{folder}/bench.v", "w", encoding="ascii") as file:
        text = ["module bench;", "  reg tick = 0;"]
        text += [f"  reg [{bits - 1}:0] lines [1:{len(lines)}];", f"  reg [{bits - 1}:0] line;"]
        text += ["  integer cycle;", f"  reg [{max(len(rules), 1) - 1}:0] flags;"]
        text += [f"  wire {port.range()}o{k};" for k, port in enumerate(rules + module.registers)]
        wires = [f".{port.name}({part})" for port, part in zip(inputs, parts)]
        wires += [f".{port.name}(o{k})" for k, port in enumerate(rules + module.registers)]
        text += [f"  {name} made(" + ", ".join([f".{module.clock if not twin else 'clk'}(tick)", *wires]) + ");"]
        values = [f"o{k}" for k in range(len(rules), len(rules) + len(module.registers))]
        shown = "".join(f" {port.known()}=%h" for port in module.registers)
        flags = "{" + ", ".join(f"o{k}" for k in range(len(rules))) + "}" if rules else "0"
        text += ["  initial begin", '    $readmemh("inputs.hex", lines);']
        text += ["    line = 0;", "    #1 $display(" + ", ".join([f'"@0 -{shown}"', *values]) + ");"]
        text += [f"    for (cycle = 1; cycle <= {len(lines)}; cycle = cycle + 1) begin", "      line = lines[cycle];"]
        text += [f"      #1 flags = {flags};", "      tick = 1;", "      #1 tick = 0;"]
        format_of_flags = "%b" if rules else "-"
        row = [f'"@%0d {format_of_flags}{shown}"', "cycle", *(["flags"] if rules else []), *values]
        text += ["      #1 $display(" + ", ".join(row) + ");", "    end", "    $finish;", "  end", "endmodule"]
        file.write("\n".join(text) + "\n")


def rows_of(report: str, module: Module, is_twin: bool) -> list[str]:
    rows: list[str] = []
    for line in report.split("\n"):
        if line.startswith("@"):
            cycle, fired, *rest = line.split(" ")
            if cycle == "@0" or is_twin or not module.rules:
                fired = "-"
            else:
                fired = "".join(str(int(rule.known() in fired.split(","))) for rule in module.rules)
            rows.append(" ".join([cycle, fired, *rest]))
    return rows


def write_cases(crate: str, folder: str) -> None:
    """A remark in the rows begins a case, and each case has one."""
    with open(f"{crate}/stdin", encoding="ascii") as file:
        cases = file.read().split("====\n")[:-1]
    with open(f"{crate}/stdout", encoding="ascii") as file:
        answers = re.split(r"^// (.*)\n", file.read(), flags=re.M)[1:]
    assert len(answers) == 2 * len(cases), "cases without rows"
    for number, (case, title, rows) in enumerate(zip(cases, answers[::2], answers[1::2])):
        place = f"{folder}/{number:02}"
        os.makedirs(place)
        text, stimulus = case.split("%%\n")
        assert text.startswith(f"// {title}\n"), f"{title}: other cases"
        parts = {"koika.v": text.split("\n", 1)[1], "stimulus": stimulus, "title": f"{title}\n"}
        for name, part in parts.items():
            with open(f"{place}/{name}", "w", encoding="ascii") as file:
                file.write(part)
        with open(f"{place}/wanted", "w", encoding="ascii") as file:
            file.write("\n".join([*rows_of(rows, Module(f"{place}/koika.v"), False), ""]))


# ---- modules around modules ---------------------------------------------------------------------------------------


def gate_of(module: Module) -> str:
    text = [f"module gate({', '.join(module.ports)});", f"  input {module.clock};"]
    text += [f"  input {port.range()}{port.name};" for port in module.inputs]
    outputs = module.rules + module.registers
    text += [f"  output {port.range()}{port.name};" for port in outputs]
    wires = [f".clk({module.clock})"]
    wires += [f".\\{p.known()}[{k}] ({p.name}[{k}])" for p in module.inputs + module.registers for k in range(p.width)]
    wires += [f".\\{port.known()} ({port.name})" for port in module.rules]
    return "\n".join([*text, f"  bits bits({', '.join(wires)});", "endmodule"])


def made_of(module: Module) -> str:
    """Rules are looked at where the clock rises, and registers where it falls."""
    outputs = module.rules + module.registers
    text = ["module made(input clk, input show);", "  integer cycle = 0;", f"  reg [{len(module.rules) - 1}:0] flags;"]
    text += ["  reg shows = 0;", *(f"  wire {port.range()}o{k};" for k, port in enumerate(outputs))]
    wires = [f".{module.clock}(clk)", *(f".{port.name}(o{k})" for k, port in enumerate(outputs))]
    flags = ", ".join(f"o{k}" for k in range(len(module.rules)))
    shown = "".join(f" {port.known()}=%h" for port in module.registers)
    values = ", ".join(["cycle", "flags", *(f"o{k}" for k in range(len(module.rules), len(outputs)))])
    text += [f"  {module.name} inner({', '.join(wires)});", "  always @(posedge clk) begin", "    cycle <= cycle + 1;"]
    text += ["    shows <= show;", f"    if (show) flags <= {{{flags}}};", "  end"]
    text += [f'  always @(negedge clk) if (shows) $display("@%0d %b{shown}", {values});', "endmodule"]
    return "\n".join(text)


def top_of(module: Module) -> str:
    """Outputs of rules are left open, so what makes them alone isn't counted."""
    ports = [module.clock, *(port.name for port in module.inputs + module.registers)]
    text = [f"module top({', '.join(ports)});", f"  input {module.clock};"]
    text += [f"  input {port.range()}{port.name};" for port in module.inputs]
    text += [f"  output {port.range()}{port.name};" for port in module.registers]
    return "\n".join([*text, f"  {module.name} made({', '.join(f'.{name}({name})' for name in ports)});", "endmodule"])


# ---- designs and stimuli ------------------------------------------------------------------------------------------


def forms(width: int, has_product: bool) -> str:
    """A design with every operator at a width, on inputs, registers, results and constants."""
    most = (1 << width) - 1
    x, y, sum_of, high = "read0(x)", "read0(y)", "(a + read0(x))", width - 1
    results: list[tuple[int, str]] = []

    def add(bits: int, *texts: str) -> None:
        results.extend((bits, text) for text in texts)

    for operator in ["&", "|", "^", "+", "-"] + (["*"] if has_product else []):
        add(width, f"a {operator} {x}", f"{y} {operator} {width}'d{most // 3}")
    for operator in ["<<", ">>", ">>>"]:
        add(width, f"a {operator} s", f"{sum_of} {operator} s")
        add(width, *(f"{x} {operator} {width}'d{amount}" for amount in sorted({1, high, min(width, most), most})))
    for operator in ["==", "!=", "<", "<=", ">", ">="]:
        add(1, f"a {operator} {x}", f"{sum_of} {operator} {width}'d{most // 2 + 1}")
    for name in ["slt", "sle", "sgt", "sge"]:
        add(1, f"{name}(a, {x})", f"{name}({sum_of}, b)", f"{name}({y}, {width}'d{most // 2})")
    add(width, "~a", "-a", f"~{sum_of}", f"-{x}")
    add(width, f"if k {{ a }} else {{ {x} }}", f"if a < b {{ {sum_of} }} else {{ b - {y} }}")
    for operand in ["a", x, sum_of]:
        add(1, f"{operand}[0]", f"{operand}[{high}]")
        add(width, f"{operand}[{high}:0]", f"zext({operand}, {width})", f"sext({operand}, {width})")
        if width > 2:
            add(width - 2, f"{operand}[{width - 2}:1]")
        if width < 128:
            add(width + 1, f"k ++ {operand}", f"{operand} ++ k", f"{operand} ++ 1'd1")
            for wide in sorted({width + 1, 128}):
                add(wide, f"zext({operand}, {wide})", f"sext({operand}, {wide})")
    if 2 * width <= 128:
        add(2 * width, f"a ++ {x}", f"{sum_of} ++ {width}'d{most // 3}")
    text = [f"input {name} : bits {width};" for name in "abs"] + ["input k : bits 1;"]
    text += [f"reg {name} : bits {width} = {width}'d{value};" for name, value in (("x", most), ("y", 1), ("z", 0))]
    for number, (bits, _) in enumerate(results):
        text.append(f"reg r{number} : bits {bits} = {bits}'d{number % (1 << min(bits, 8))};")
    writes = (f"    write0(r{number}, {form})" for number, (_, form) in enumerate(results))
    text += ["rule all {", ";\n".join(writes), "}"]
    text += ["rule less { if a >= read0(x) { abort }; write0(z, read0(x) - a) }"]
    text += ["rule take { write0(x, b); write0(y, a) }"]
    return "\n".join([*text, "schedule { all; less; take; }", "%%"])


def by_chance(design: str, module: Module, cycles: int) -> list[str]:
    """Values at the ends of their ranges are frequent, and small ones for an input `s`, an amount of shifts."""
    with open(design, encoding="ascii") as file:
        lines = file.read().split("\n")
    own = [line for line in lines[lines.index("%%") + 1 :] if line] if "%%" in lines else []
    chance = random.Random(1)
    for _ in range(cycles - len(own)):
        words = []
        for port in module.inputs:
            name, width = port.known(), port.width
            most = (1 << width) - 1
            ends = [0, most, most >> 1, (most >> 1) + 1, chance.randint(0, most), chance.randint(0, most)]
            value = min(chance.randint(0, width + 1), most) if name == "s" else chance.choice(ends)
            words.append(f"{name}=0x{value:x}")
        own.append(" ".join(words))
    return own[:cycles]


def main(words: list[str]) -> None:
    command, *rest = words
    twin = None
    if command == "bench" and rest[0] == "--twin":
        twin, rest = rest[1], rest[2:]
    is_twin = rest[:1] == ["--twin"]
    rest = rest[is_twin:]
    if command == "forms":
        print(forms(int(rest[0]), rest[1:] != ["--no-product"]))
    elif command == "stimulus":
        print("\n".join(by_chance(rest[0], Module(rest[1]), int(rest[2]))))
    elif command == "bench":
        write_bench(Module(rest[0]), stimulus_of(rest[1])[:-1], rest[2], twin)
    elif command == "reset":
        module, lines = Module(rest[0]), stimulus_of(rest[1])[:-1]
        assert module.reset
        write_bench(module, [*lines, {**lines[0], "rst": 1}, *lines], rest[2], None)
    elif command == "rows":
        print("\n".join(rows_of(sys.stdin.read(), Module(rest[0]), is_twin)))
    elif command == "bits":
        print(gate_of(Module(rest[0])))
    elif command == "made":
        print(made_of(Module(rest[0])))
    elif command == "cases":
        write_cases(rest[0], rest[1])
    elif command == "registers":
        print(top_of(Module(rest[0])))
    else:
        sys.exit(__doc__)


main(sys.argv[1:])
