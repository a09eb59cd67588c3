"""Runs modules by Icarus Verilog, reads them by Verilator, and compares the rows of both with those that are given.

The first argument is a file with, for each width, a line `==== WIDTH`, a module, a line `==== rows` and the rows: the
inputs, a colon, the rules' flags in a cycle and the registers after it, all in hexadecimal digits. The second is a
folder to work in. With `--verilator` the modules are run by Verilator too.
"""

import re
import subprocess
import sys
from pathlib import Path

# What Verilator may warn of: a comparison that a constant decides, and a file that isn't named as its module.
EXPLAINED = {"CMPCONST", "UNSIGNED", "DECLFILENAME"}
OWN = {"clk$": "k", "rst$": "z", "a": "a", "clk": "b", "wire$": "c"}


def bench(width: int, module: str, rows: list[str]) -> str:
    """A test bench that writes the rows of a module."""
    name, ports = re.match(r"module (\S+)\(([^)]*)\);", module).groups()
    outputs = [
        (int(top) + 1 if top else 1, port)
        for top, port in re.findall(r"^  output (?:reg )?(?:\[(\d+):0\] )?(\S+?)(?: = .*)?;$", module, re.M)
    ]
    rules = [port for _, port in outputs if port in ("koika", "rst")]
    registers = [port for _, port in outputs if port not in ("koika", "rst")]
    text = [f"module tb; reg k = 0, z = 0, c; reg [{width - 1}:0] a, b;"]
    text += [f"wire [{wide - 1}:0] o_{port.replace('$', '_')};" for wide, port in outputs]
    joined = [f".{port}({OWN.get(port, 'o_' + port.replace('$', '_'))})" for port in ports.split(", ")]
    text += [f"{name} made({', '.join(joined)});", "initial begin"]
    for row in rows:
        inputs = row.split(" :")[0]
        a, b, c = inputs.split()
        text += [f"a = {width}'h{a}; b = {width}'h{b}; c = 1'h{c}; #2; $write(\"{inputs} :\");"]
        text += [f'$write(" %0h", o_{port});' for port in rules]
        text += ["k = 1; #2;"]
        text += [f'$write(" %0h", o_{port.replace("$", "_")});' for port in registers]
        text += ['$write("\\n"); k = 0; #2;']
    return "\n".join(text + ["$finish;", "end", "endmodule", ""])


def by_icarus(made: Path, test: Path, room: Path) -> list[str]:
    """The rows by Icarus Verilog."""
    run = room / "run.vvp"
    subprocess.run(["iverilog", "-g2005", "-Wall", "-Wno-timescale", "-o", run, test, made], check=True)
    return subprocess.run(["vvp", "-n", run], check=True, capture_output=True, text=True).stdout.splitlines()


def by_verilator(made: Path, test: Path, room: Path) -> list[str]:
    """The rows by Verilator."""
    built = room / "built"
    subprocess.run(
        ["verilator", "--binary", "--timing", "-Wno-lint", "--top-module", "tb", "--Mdir", built, "-o", "run", test, made],
        check=True, capture_output=True,
    )
    said = subprocess.run([built / "run"], check=True, capture_output=True, text=True).stdout.splitlines()
    return [line for line in said if " :" in line]


def warnings(made: Path) -> set[str]:
    """What Verilator warns of."""
    said = subprocess.run(["verilator", "--lint-only", "-Wall", "-Wno-fatal", made], capture_output=True, text=True).stderr
    if "%Error" in said:
        sys.exit(f"rows.py: Verilator refuses {made}:\n{said}")
    return set(re.findall(r"%Warning-(\w+)", said))


def main() -> None:
    parts = re.split(r"^==== (\d+)\n", Path(sys.argv[1]).read_text(), flags=re.M)[1:]
    if len(parts) != 14:
        sys.exit(f"rows.py: {len(parts) // 2} widths in place of 7")
    room = Path(sys.argv[2])
    tools = [by_icarus] + ([by_verilator] if "--verilator" in sys.argv else [])
    for width, text in zip(parts[::2], parts[1::2]):
        module, wanted = text.split("==== rows\n")
        rows = wanted.split("\n")[:40]
        made, test = room / f"made{width}.v", room / f"test{width}.v"
        made.write_text(module)
        test.write_text(bench(int(width), module, rows))
        if not warnings(made) <= EXPLAINED:
            sys.exit(f"rows.py: Verilator warns of {warnings(made) - EXPLAINED} at width {width}")
        for tool in tools:
            if tool(made, test, room) != rows:
                sys.exit(f"rows.py: rows differ at width {width} ({tool.__name__})")
        print(f"width {width}: {len(rows)} rows of {len(rows[0].split()) - 6} registers are equal")


main()
