#!/usr/bin/env python3
"""Runs the commands of the pages and compares what they write; bench/pages.sh calls it.

    pages.py FOLDER PAGE..

FOLDER is a checkout with a built program. An indented block of a page with lines `$ COMMAND` is a transcript: what
follows a command, up to the next one, is what it writes. There a line `..` is for any lines, and a remark may follow a
line after two spaces. Other blocks are listings. The tables below say which listings are files, and which are commands;
one that ends with a schedule is a design, and has to be accepted.
"""
import os
import re
import shutil
import subprocess
import sys
import tempfile
import textwrap

# Listings that are files: the page, how its first line begins, and the file's name. A file is there from its place on.
FILES = [
    ("AIGER.md", "input go : bits 1;", "design.koika"),
    ("CIRCUITS.md", "module bench;", "bench.v"),
    ("GENERATING.md", "//@ parameter n 4", "delay.koika.in"),
    ("GENERATING.md", "//@ table text bits 8", "send.koika.in"),
    ("JOURNAL.md", "reg x : bits 8 = 8'd0;", "clash.koika"),
    ("JOURNAL.md", "journal workers=2", "clash.journal"),
    ("LANGUAGE.md", "input go : bits 1;", "watch.koika"),
    ("SWEEPS.md", "#!/bin/sh", "sweep.sbatch"),
    ("THREADS.md", "reg x : bits 8 = 8'd1;", "two.koika"),
    ("THREADS.md", "journal workers=2", "two.journal"),
]

# A design in Verilog with a memory, a register without a first value, and one with reset and enable.
VERILOG = """cat > design.v <<'END'
module top(input clk, input reset, input we, input [3:0] at, input [7:0] data, output reg [7:0] q, output bad);
  reg [7:0] memory [0:15];
  reg [3:0] count = 4'd5;
  always @(posedge clk) begin
    if (we) memory[at] <= data;
    q <= memory[at];
    if (reset) count <= 0; else if (we) count <= count + 1;
  end
  assign bad = count == 10;
endmodule
END"""
WRITES = "for at in 0 1 2 3 4 5; do echo we=1 at=$at data=7; done"

# What a reader has where a page begins: commands that make it.
BEFORE = {
    "AIGER.md": VERILOG,
    "CIRCUITS.md": VERILOG,
    "GENERATING.md": """cat > design.koika <<'END'
input key : bits 8;
input shift : bits 1;
reg last : bits 8 = 8'd0;
rule press { if key == 8'd0 { abort }; write0(last, if shift { key + 8'd32 } else { key }) }
schedule { press; }
END""",
    "JOURNAL.md": """cp examples/counter.koika design.koika
yes '' | head -n 5 > stimulus
./koika sim --cycles 1000 --workers 2 --journal < design.koika > journal
head -c $(($(wc -c < journal) * 3 / 4)) journal > part""",
    "LIMITS.md": "cp examples/counter.koika design.koika; : > long.stimulus",
    # Stand-ins: an ssh that stays on this machine, and an sbatch that runs the tasks of an array one after another.
    "SWEEPS.md": """mkdir fake
cat > fake/ssh <<'END'
#!/bin/bash
while [ "${1#-}" != "$1" ]; do case $1 in -o | -l | -p) shift ;; esac; shift; done
[ "$1" = first ] || [ "$1" = second ] || exit 255
shift
[ "$1" != -- ] || shift
exec bash -c "$*"
END
cat > fake/sbatch <<'END'
#!/bin/bash
[ "$1" = --wait ] || exit 1
tasks=$(sed -n 's/^#SBATCH --array=1-//p' "$2")
for task in $(seq 1 $tasks); do SLURM_ARRAY_TASK_ID=$task sh "$2"; done
END
chmod +x fake/*""",
}
# Whether the rows are those of a sweep, in whichever order.
SORTED = ("bin/sweep examples/limit.koika stimuli | tail -n +2 | LC_ALL=C sort > sorted"
          "; LC_ALL=C sort rows | cmp - sorted")

# Listings that are commands: the page, how the first line begins, the commands that they are among, at the place of {},
# and what all these write.
SCRIPTS = [
    ("AIGER.md", "yosys -p 'read_verilog design.v; prep",
     "{} > /dev/null; ( " + WRITES + " ) > writes; ./koika aigsim --cycles 6 --summary design.aag writes |"
     " grep -e fired.bad -e ^count",
     "fired bad 1\ncount=b"),
    ("CIRCUITS.md", "yosys -p 'read_verilog -sv design.v; prep",
     "{} > /dev/null; ( " + WRITES + " ) > writes; ./koika btorsim --cycles 6 --summary design.btor2 writes |"
     " grep -e fired.bad -e ^count",
     "fired bad 1\ncount=b"),
    ("JOURNAL.md", "./koika recheck --cycles 1000 design.koika stimulus",
     "{} > report; ./koika sim --cycles 1000 design.koika | cmp - report", ""),
    ("JOURNAL.md", "./koika recheck --cycles 1000 design.koika journal",
     "cp design.koika kept; echo %% >> design.koika; {} > report; mv kept design.koika; "
     "./koika sim --cycles 1000 design.koika | cmp - report", ""),
    ("JOURNAL.md", "( cat design.koika; printf '\\n%%%%\\n'; cat stimulus; printf '\\n%%%%\\n'; cat journal ) | ",
     "{} > report; ./koika sim --cycles 1000 design.koika | cmp - report", ""),
    ("JOURNAL.md", "awk '{ text = text $0",
     "{} > report; ./koika sim --cycles $cycles design.koika | cmp - report; [ $cycles -ge 512 ] || echo $cycles", ""),
    ("LIMITS.md", "./koika compile design.koika | ./koika btorsim", "{}",
     "cycles 1000000\nfired incr 1000000\ncount=40"),
    ("SWEEPS.md", "bin/sweep examples/limit.koika stimuli | awk", "{}",
     "1.txt ten@16\n10.txt ten@20\n11.txt ten@22\n.."),
    ("SWEEPS.md", "parallel -k -j 4",
     "{}; " + SORTED + "; wc -l < rows", "40"),
    ("SWEEPS.md", "parallel -k --sshdelay", "PATH=$PWD/fake:$PATH; {}; " + SORTED + "; wc -l < rows", "40"),
    ("SWEEPS.md", "sbatch --wait", "rm rows; PATH=$PWD/fake:$PATH; ( {} ) > joined; mv joined rows; " + SORTED, ""),
]

# What a page says in a sentence: the page, words of it, commands that show it, and what they write. They come after the
# page's own.
COUNTER = """cat > counter.v <<'END'
module top(input clk, input [3:0] data, output [3:0] q);
  reg [3:0] count FIRST;
  always @(posedge clk) count <= count + data;
  assign q = count; ASSERTION
endmodule
END
yosys -q -p 'read_verilog -sv counter.v; prep -top top; flatten; techmap; opt; dfflegalize -cell $_DFF_P_ 01; aigmap;
             clean; write_aiger OPTIONS -ascii -symbols counter.aag'
./koika aigsim --cycles 0 counter.aag 2> /dev/null"""


def counter(first="", assertion="", options=""):
    """The commands that make an AIGER file of a counter and run it."""
    return COUNTER.replace("FIRST", first).replace("ASSERTION", assertion).replace("OPTIONS", options)


CLAIMS = [
    ("AIGER.md", "`write_aiger` refuses the cell `$mem_v2`",
     "yosys -q -p 'read_verilog design.v; prep -top top; flatten; techmap; opt; dfflegalize -cell $_DFF_P_ 01; aigmap;"
     " clean; write_aiger -ascii x.aag' 2>&1 | grep -o 'mem_v2'", "mem_v2"),
    ("AIGER.md", "Without it such a register is its own reset (75)", counter(), "fault 75 at 7:1"),
    ("AIGER.md", "and writes a `!` before their names",
     counter("= 4'd1", "", "-zinit") + " | grep -o '!count.0'", "!count[0"),
    ("AIGER.md", "An assertion makes a header of more numbers (70)",
     counter("= 4'd1", "always @* assert(count != 10);"), "fault 70 at 1:1"),
    ("AIGER.md", "A register that is also a port has both names",
     counter("= 4'd1") + " | cut -c 1-17", "@0 - count[0] q=1"),
    ("CIRCUITS.md", "there is a `write_btor` and no `read_btor`",
     "yosys -p 'help read_btor' | grep -o '^No such command'", "No such command"),
    ("CIRCUITS.md", "With `bad 9` the answer is `unsat`",
     "./koika compile examples/limit.koika | bin/smt bad 9 | z3 -in > said; echo $?; head -n 1 said", "1\nunsat"),
    ("FORMATS.md", "A file that can't be read is status 3", "./koika check none 2> /dev/null; echo $?", "3"),
    ("FORMATS.md", "`-` names that",
     "./koika check - < examples/counter.koika", "ok registers=1 rules=1 nodes=1 weight=10"),
    ("FORMATS.md", "`/dev/null` is an empty part",
     "./koika sim --cycles 0 examples/counter.koika /dev/null", "@0 - count=00"),
    ("FROM-BLUESPEC.md", "producer first at port 0, then consumer at port 1", """cat > fifo.koika <<'END'
input put : bits 1; input get : bits 1; reg full : bits 1 = 1'd0;
rule enqueue { if ~put | read0(full) { abort }; write0(full, 1'd1) }
rule dequeue { if ~get | ~read1(full) { abort }; write1(full, 1'd0) }
schedule { enqueue; dequeue; }
END
printf 'put=1 get=1\\nput=1\\nput=1 get=1\\n' > stimulus; ./koika sim --cycles 3 fifo.koika stimulus""",
     "@0 - full=0\n@1 enqueue,dequeue full=0\n@2 enqueue full=1\n@3 dequeue full=0"),
    ("LAB.md", "So it is in a design without assertions, and for N = 0",
     "./koika profile --strict --cycles 9 examples/uart.koika > counts; echo $?; "
     "./koika profile --strict --cycles 0 examples/limit.koika > counts; echo $?", "0\n0"),
    ("LAB.md", "Status 8 came exactly where `--strict` is given",
     "yes go=1 | head -n 12 > stimulus; for words in '' --strict; do "
     "./koika profile --cycles 12 $words examples/limit.koika stimulus 2> /dev/null | tail -n 1; "
     "echo ${PIPESTATUS[0]}; done",
     "assert ten held 11 violated 1 unwatched 0\n0\nassert ten held 11 violated 1 unwatched 0\n8"),
    ("LAB.md", "Everything else is status 1, with the lab's usage line",
     "./koika why --cycle 0 examples/limit.koika 2> /dev/null; echo $?",
     "usage: koika_lab why|profile|lint|waves|step|verilog|obligation|certify\n1"),
    ("LANGUAGE.md", "the old value and another rule's new value in one rule | not possible", """cat > both.koika <<'END'
reg x : bits 8 = 8'd0; reg old : bits 8 = 8'd0; reg new : bits 8 = 8'd0;
rule write { write0(x, 8'd1) }
rule both { write0(old, read0(x)); write0(new, read1(x)) }
schedule { write; both; }
END
./koika sim --cycles 1 both.koika | tail -n 1""", "@1 write x=01 old=00 new=00"),
    ("SWEEPS.md", "which is 0 also where an assertion is violated",
     "bin/sweep examples/limit.koika stimuli | awk '$3 == \"ten@16\" { print $2 }' | head -n 1"
     "; bin/sweep examples/limit.koika stimuli > /dev/null; echo $?", "0\n2"),
]

# Messages on faults are those that a user gets.
ENVIRONMENT = {name: value for name, value in os.environ.items() if name not in ("KOIKA", "KOIKA_EXPLAIN")}

# What isn't installed everywhere: a word of a command, and the program that it needs. The file `answer` is z3's.
TOOLS = {
    "yosys": "yosys", "berkeley-abc": "berkeley-abc", "iverilog": "iverilog", "vvp": "iverilog", "z3": "z3",
    "answer": "z3", "cvc5": "cvc5", "nextpnr-ice40": "nextpnr-ice40", "icepack": "icepack", "parallel": "parallel",
    "verilator": "verilator", "obj_dir/run": "verilator",
    "qemu-riscv32": "qemu-riscv32", "examples/riscv/build": "riscv64-unknown-elf-gcc", "pytest": "pytest",
}

# Commands that are left out where the lab has no such command yet: its words, and what of a command of a page needs it.
LATER = [
    (["step"], r"koika step|clients/python|examples/testbench|broken\.stimulus|drive\.sh"),
    (["waves", "--cycles", "0"], r"koika waves"),
]


def blocks_of(page):
    """The indented blocks of a page, each a list of lines, with the number of its first line."""
    found, block, start, blank_before = [], [], 0, True
    with open(page, encoding="utf-8") as text:
        for number, line in enumerate(text.read().split("\n"), 1):
            is_code = line.startswith("    ") and (block or blank_before)
            # A transcript has no empty line, a listing may have some.
            after_transcript = block[:1] and block[0].startswith("$ ")
            ends = blank_before and (not is_code or line.startswith("    $ ") or after_transcript)
            if block and (ends or not is_code and line != ""):
                found.append((start, strip_end(block)))
                block = []
            if is_code:
                if not block:
                    start = number
                block.append(line[4:])
            elif block:
                block.append("")
            blank_before = line == ""
    return found + ([(start, strip_end(block))] if block else [])


def strip_end(lines):
    """Lines without empty ones at their end."""
    while lines and lines[-1] == "":
        lines = lines[:-1]
    return lines


def is_whole(command):
    """Whether a shell takes this as a command that has its end."""
    return subprocess.run(["bash", "-n", "-c", command], stderr=subprocess.DEVNULL, check=False).returncode == 0


def commands_of(block):
    """The commands of a transcript, each with the lines that it writes."""
    found, at = [], 0
    while at < len(block):
        command = block[at][2:]
        at += 1
        while not is_whole(command) and at < len(block):
            command += "\n" + block[at]
            at += 1
        wanted = []
        while at < len(block) and not block[at].startswith("$ "):
            wanted.append(block[at])
            at += 1
        found.append((command, strip_end(wanted)))
    return found


def masked(line):
    """A line without what differs from run to run, times and frequencies, and with one blank between words."""
    line = re.sub(r"\d+\.\d+ sec", "N sec", line)
    line = re.sub(r"\d+\.\d+ MHz", "N MHz", line)
    return re.sub(r"(?<=\S)[ \t]+", " ", line).rstrip()


def is_line(wanted, found):
    """Whether a line is the one that is wanted, which may have a remark after two spaces."""
    said = re.split(r"(?<=\S)  +", wanted)
    return masked(found) in [masked("  ".join(said[:count])) for count in range(1, len(said) + 1)]


# Tools that say more than a page shows.
TALKERS = r"(berkeley-abc|nextpnr-ice40|yosys -p)\b"


def are_among(wanted, found):
    """Whether lines come in this order, with any lines between."""
    rest = iter(found)
    return all(any(is_line(line, other) for other in rest) for line in wanted)


def are_lines(wanted, found):
    """Whether lines are those that are wanted, where `..` is for any lines."""
    if not wanted:
        return not found
    if wanted[0] == "..":
        return any(are_lines(wanted[1:], found[skipped:]) for skipped in range(len(found) + 1))
    return bool(found) and is_line(wanted[0], found[0]) and are_lines(wanted[1:], found[1:])


class Pages:
    """What was tried, and what was wrong."""

    def __init__(self, top):
        self.top = top
        self.tried = self.wrong = 0
        self.skipped = {}
        self.unknown = {}
        self.used = set()

    def say(self, where, what):
        """Notes that something is wrong."""
        self.wrong += 1
        print(f"pages.sh: {where}: {what}", file=sys.stderr)

    def missing_tool(self, command):
        """The first tool of a command that isn't installed."""
        for word, tool in TOOLS.items():
            if re.search(r"(^|[\s(;|$])" + re.escape(word) + r"(\s|$)", command) and not shutil.which(tool):
                return tool
        for words, pattern in LATER:
            if re.search(pattern, command) and self.is_unknown(words):
                return f"the command `{words[0]}`"
        return None

    def is_unknown(self, words):
        """Whether the program refuses these words."""
        if words[0] not in self.unknown:
            done = subprocess.run([os.path.join(self.top, "koika"), *words], stdin=subprocess.DEVNULL, check=False,
                                  stdout=subprocess.DEVNULL, stderr=subprocess.DEVNULL, env=ENVIRONMENT)
            self.unknown[words[0]] = done.returncode == 1
        return self.unknown[words[0]]

    def run(self, where, command, wanted, room):
        """Runs a command and compares the lines that it writes."""
        tool = self.missing_tool(command)
        if tool:
            self.skipped[tool] = self.skipped.get(tool, 0) + 1
            return
        self.tried += 1
        shown = re.fullmatch(r"cat ([a-z.]+)", command)
        if shown and wanted and not os.path.exists(os.path.join(room, shown[1])):
            # A file that a reader writes.
            with open(os.path.join(room, shown[1]), "w", encoding="utf-8") as file:
                file.write("\n".join(wanted) + "\n")
        done = subprocess.run(
            ["bash", "-c", command], cwd=room, stdin=subprocess.DEVNULL, stdout=subprocess.PIPE,
            stderr=subprocess.STDOUT, timeout=600, check=False,
            env={**ENVIRONMENT, "KOIKA": os.path.join(self.top, "koika")})
        found = strip_end(done.stdout.decode("utf-8", "replace").split("\n"))
        if not (are_among if re.match(TALKERS, command) else are_lines)(wanted, found):
            self.say(where, f"another answer to: {command}\n" + "\n".join(found))

    def page(self, page):
        """Runs what a page has, in a folder of its own."""
        name = os.path.basename(page)
        with tempfile.TemporaryDirectory() as room:
            for part in ("koika", "bin", "examples", "docs", "editors", "crates", "clients"):
                os.symlink(os.path.join(self.top, part), os.path.join(room, part))
            if name in BEFORE:
                subprocess.run(["bash", "-c", BEFORE[name]], cwd=room, check=True)
            for start, block in blocks_of(page):
                self.block(name, start, block, room)
            with open(page, encoding="utf-8") as file:
                text = " ".join(file.read().split())
            for of_page, words, command, wanted in CLAIMS:
                if of_page == name:
                    self.run(f"{name}, {words}", command, wanted.split("\n"), room)
                    if words not in text:
                        self.say(name, f"it doesn't say: {words}")

    def block(self, name, start, block, room):
        """Runs a transcript or commands, or makes a file."""
        where = f"{name}:{start}"
        block = textwrap.dedent("\n".join(block)).split("\n")
        for of_page, first, file_name in FILES:
            if of_page == name and block[0].startswith(first) and (of_page, file_name) not in self.used:
                self.used.add((of_page, file_name))
                with open(os.path.join(room, file_name), "w", encoding="utf-8") as file:
                    file.write("\n".join(block) + "\n")
        for of_page, first, among, wanted in SCRIPTS:
            if of_page == name and block[0].startswith(first):
                self.used.add((of_page, first))
                self.run(where, among.replace("{}", "\n".join(block)), wanted.split("\n") if wanted else [], room)
        if block[0].startswith("$ "):
            for command, wanted in commands_of(block):
                self.run(where, command, wanted, room)
        elif "schedule {" in "\n".join(block[1:]) and "//@" not in "\n".join(block):
            design = "\n".join(block).replace("'", "'\"'\"'")
            self.run(where, f"printf '%s\\n' '{design}' | ./koika check | cut -d ' ' -f 1", ["ok"], room)

    def links(self, page):
        """Whether the files that a page names are there."""
        with open(page, encoding="utf-8") as file:
            text = file.read()
        folder, top = os.path.dirname(page), os.getcwd()
        for target in re.findall(r"\]\(([^)#]+)\)", text):
            if not os.path.exists(os.path.join(folder, target)):
                self.say(os.path.basename(page), f"there is no {target}")
        folders = [os.path.join(top, part) for part in ("", "docs", "docs/measured", "editors")]
        for target in re.findall(r"`([A-Za-z_/-]+\.md)`", text):
            if not any(os.path.exists(os.path.join(there, target)) for there in folders):
                self.say(os.path.basename(page), f"there is no {target}")
        for target in re.findall(r"`((?:bin|bench|examples|editors|crates|clients|docs)/[A-Za-z0-9_./-]+)`", text):
            if not os.path.exists(os.path.join(top, target)):
                self.say(os.path.basename(page), f"there is no {target}")


# ---- tables -------------------------------------------------------------------------------------------------------


def rows_of(page, head):
    """The cells of the tables of a page whose first line begins so."""
    rows, is_in = [], False
    with open(page, encoding="utf-8") as text:
        for line in text.read().split("\n"):
            is_in = line.startswith(head) or is_in and line.startswith("|")
            if is_in and not line.startswith((head, "|---")):
                cells = re.split(r"(?<!\\)\|", line)[1:-1]
                rows.append([cell.strip() for cell in cells])
    return rows


def ticked(cell):
    """What a cell has in backquotes."""
    return re.findall(r"`([^`]*)`", cell)


def statements(count):
    """A block with statements; its weight is twice their number and one, its depth their number and one."""
    return "{ " + "1'd0; " * count + "}"


def weighing(weight):
    """A design of this weight, at least 2,000."""
    rules, left = [], weight
    while left >= 2002:
        rules.append(500)
        left -= 1001
    half = left // 2
    half -= 1 - half % 2
    rules += [(half - 1) // 2, (left - half - 1) // 2] if (left - half) % 2 else [(left - 1) // 2]
    return "".join(f"rule r{k} {statements(count)} " for k, count in enumerate(rules)) + "schedule { }"


def tried(nodes):
    """A design with this many places where a rule is tried, 1,023 and some more."""
    def tree(level):
        nonlocal nodes
        if level == 10:
            nodes -= 1
            return "z; " if nodes >= 1023 else ""
        return f"try r{level} then {{ {tree(level + 1)}}} else {{ {tree(level + 1)}}} "
    return "".join(f"rule r{k} {{ }} " for k in range(10)) + "rule z { } schedule { " + tree(0) + "}"


def latches(count, name):
    """The lines of an AIGER file of latches, each its own next value, with these symbols."""
    lines = [f"aag {count} 0 {count} 0 0"] + [f"{2 * k} {2 * k}" for k in range(1, count + 1)]
    return "\n".join(lines + [f"l{k} {name(k)}" for k in range(count)])


def repeated(count, line, first="", last="schedule { }"):
    """A text with a line for each number from 0 on."""
    return first + "".join(line.replace("#", str(k)) for k in range(count)) + last


def brackets(count):
    """A design with this many brackets open."""
    return "rule a { " + "(" * (count - 1) + "1'd0" + ")" * (count - 1) + "; } schedule { }"


def padded(length, text="schedule { }", rest=""):
    """A text of this many bytes, before the rest."""
    return text + " " * (length - len(text) - 1) + "\n" + rest


# The rows of LIMITS.md: the command, and its source for a number.
LIMITS = {
    "bytes of a source, with its stimulus": ("check", padded),
    "bytes of a source of `step`, up to the end of its line `%%`": ("step", lambda n: padded(n - 3, rest="%%\n")),
    "bytes of a name": ("check", lambda n: f"rule {'a' * n} {{ }} schedule {{ }}"),
    "open brackets": ("check", brackets),
    "a number, such as a length": ("check", lambda n: f"rule a {{ zext(1'd0, {n}); }} schedule {{ }}"),
    "bits of a literal": ("check", lambda n: f"rule a {{ {n}'d0; }} schedule {{ }}"),
    "bits of a type, so of a register, an input or a value": ("check", lambda n: f"input a : bits {n}; schedule {{ }}"),
    "items of an array": ("check", lambda n: f"input a : [bits 1; {n}]; schedule {{ }}"),
    "input bits of a table": ("check", lambda n: f"table t : bits {n} -> bits 1 {{ 1'd0 }} schedule {{ }}"),
    "registers": ("check", lambda n: repeated(n, "reg r# : bits 1 = 1'd0; ")),
    "rules": ("check", lambda n: repeated(n, "rule r# { } ")),
    "inputs": ("check", lambda n: repeated(n, "input i# : bits 1; ")),
    "nodes of the schedule: places where a rule is tried": ("check", tried),
    "weight (`LANGUAGE.md`, \"Weight and depth\")": ("check", weighing),
    "depth": ("check", lambda n: f"rule a {statements(n - 1)} schedule {{ }}"),
    "bit weight, for `aiger` (`AIGER.md`)": ("aiger", lambda n: weighing((n + 127) // 128)),
    "cycles": ("sim --summary --cycles N", lambda n: "schedule { }"),
    "cycles of `profile`": ("profile --cycles N", lambda n: "schedule { }"),
    "cycles of `waves`": ("waves --cycles N", lambda n: "schedule { }"),
    "bytes of a line of the stimulus of `step`":
        ("step", lambda n: f"input k : bits 1; schedule {{ }}\n%%\nk=0{' ' * (n - 3)}\n"),
    "the last cycle of `why`": ("why --cycles 2 --cycle LAST", lambda n: "schedule { }"),
    "cycles times one more than the weight, for a journal":
        ("sim --workers 1 --journal --cycles N", lambda n: "schedule { }"),
    "cycles, counted up to 256, times the states of a BTOR2 file":
        ("btorsim --summary --cycles 300", lambda n: repeated((n + 255) // 256, "a#\n", "1 sort bitvec 1\n", "")),
    "cycles, counted up to 256, times its outputs of one bit":
        ("btorsim --summary --cycles 300",
         lambda n: repeated((n + 255) // 256, "b#\n", "1 sort bitvec 1\n2 zero 1\n", "")),
    "cycles, counted up to 256, times the words of latches of an AIGER file":
        ("aigsim --summary --cycles 300", lambda n: latches((n + 255) // 256, lambda k: f"x{k}")),
    "cycles, counted up to 256, times its outputs":
        ("aigsim --summary --cycles 300",
         lambda n: repeated((n + 255) // 256, "0\n", f"aag 0 0 0 {(n + 255) // 256} 0\n", "")),
    "the number after `--cycles`": ("sim --cycles N", lambda n: "schedule { }"),
    "digits of that number, with leading zeros": ("sim --cycles DIGITS", lambda n: "schedule { }"),
    "workers": ("sim --cycles 1 --workers N", lambda n: "schedule { }"),
    "workers of a journal": ("sim --cycles 1 --journal --workers N", lambda n: "schedule { }"),
    "stages of `gen`": ("gen N", lambda n: ""),
    "bytes of a source of `btorsim`, `aigsim` or `recheck`, with its stimulus": None,
    "bytes of the design in a source of `recheck`, up to the first `%%`":
        ("recheck --cycles 0", lambda n: padded(n, rest="%%\n%%\njournal workers=1\n")),
    "bits of a sort in BTOR2": ("btorsim --cycles 0", lambda n: f"1 sort bitvec {n}"),
    "an id in BTOR2": ("btorsim --cycles 0", lambda n: f"{n} sort bitvec 1"),
    "a width, a bound or a count in BTOR2": ("btorsim --cycles 0", lambda n: f"1 sort bitvec {n}"),
    "a number in AIGER": ("aigsim --cycles 0", lambda n: f"aag {n} 0 0 0 0"),
    "bits of a word of latches in AIGER": None,
}


def numbered(source):
    """The lines `aK` and `bK` of a BTOR2 text, K a number: a state with a next value, and an output."""
    def state(match):
        line = 2 * int(match[1]) + 3
        return f"{line} state 1\n{line + 1} next 1 {line} {line}"
    source = re.sub(r"^a(\d+)$", state, source, flags=re.M)
    return re.sub(r"^b(\d+)$", lambda match: f"{int(match[1]) + 3} output 2", source, flags=re.M)


# A habit in words: the source.
HABITS = {
    "a byte order mark at the file's start": "\ufeffschedule { }",
    "a rule, function or type that is declared below its use": "rule x { g() } fun g() : unit { } schedule { x; }",
    "a function that calls itself": "fun g() : unit { g() } schedule { }",
}


def habit(example, is_stimulus):
    """A source with an example: a declaration, a statement, an expression, or a line of a stimulus."""
    if example in HABITS:
        return HABITS[example]
    example = example.replace("\\|", "|").replace("..", "")
    names = "input a : bits 8; input b : bits 8; input d : bits 8; input c : bits 1; reg count : bits 8 = 8'd0;"
    names += "fun f(x : bits 8) : bits 8 { x }"
    if is_stimulus:
        return names + "schedule { }\n%%\n" + example
    if example.startswith(("reg ", "rule ")):
        return names + ("reg r : bits 8 = 8'd0;" if "read0(r)" in example else "") + example + " schedule { }"
    if example.startswith("assert"):
        return names + "reg r : bits 8 = 8'd0; rule bad { } " + example + " schedule { }"
    names += "reg r : bits 8 = 8'd0;"
    is_choice = example.startswith("if c") and "else" in example
    if not is_choice and example.startswith(("if c ", "c = d", "let v = if c", "else ")) or example.endswith(";"):
        before = "if c { abort } " if example.startswith("else") else "let v = a; "
        return names + "rule x { " + before + example + " } schedule { x; }"
    if example in ("!a", "~a"):
        example = example[0] + "c"
    value = example if example.startswith("write") else "let z = " + example + ";"
    return names + "rule x { " + value + " } schedule { x; }"


class Tables:
    """Tries the rows of tables."""

    def __init__(self, pages, folder):
        self.pages, self.folder = pages, folder

    def answer(self, command, source, seconds=600):
        """What the program writes, its first bytes alone; nothing where it takes longer."""
        self.pages.tried += 1
        with tempfile.TemporaryFile() as file:
            file.write(source.encode())
            file.seek(0)
            try:
                done = subprocess.run(
                    [os.path.join(self.pages.top, "koika")] + command.split(), stdin=file, stdout=subprocess.PIPE,
                    stderr=subprocess.DEVNULL, timeout=seconds, check=False, env=ENVIRONMENT)
            except subprocess.TimeoutExpired:
                return ""
            return done.stdout.decode("utf-8", "replace")

    def same(self, where, found, wanted):
        """Notes where an answer isn't the one that is wanted."""
        if found != wanted:
            self.pages.say(where, f"found {found}, wanted {wanted}")

    def limits(self, page):
        """Each limit: not refused at it, and refused above it."""
        rows = rows_of(page, "| of |")
        for of, most, above in rows:
            if of not in LIMITS:
                self.pages.say("LIMITS.md", f"nothing tries the row {of}")
            elif LIMITS[of]:
                self.limit(of, int(most.replace(",", "")), above)
        for of in set(LIMITS) - {row[0] for row in rows}:
            self.pages.say("LIMITS.md", f"no row {of}")

    def limit(self, of, most, above):
        """One limit."""
        command, source = LIMITS[of]
        refusal = "usage:" if above == "status 1" else f"fault {above} "
        for number in (most, most + 1):
            words = command.replace("DIGITS", str(1).zfill(min(number, 20))).replace("N", str(number))
            words = words.replace("LAST", str(number - 1))  # the second of two cycles is the one with the number
            # A run that isn't refused at once needn't end.
            said = self.answer(words, numbered(source(number)), 5 if number == most else 600)
            if said.startswith("@0 "):
                said = said.split("\n", 1)[-1]  # of `step` the row before all cycles comes first
            if said.startswith(refusal) != (number > most):
                self.pages.say("LIMITS.md", f"{of}: {number}: {said[:60]!r}")

    def refusals(self, page):
        """Each example of a refused line of a BTOR2 file."""
        with open(page, encoding="utf-8") as text:
            before = re.search(r"Each example follows the lines\n\n((?:    .*\n)+)", text.read())[1]
        before = textwrap.dedent(before)
        for number, _, _, examples in rows_of(page, "| number | what is wrong"):
            lines = ticked(examples)
            texts = ["\n".join(lines)] if examples.startswith("after") else lines
            for text in texts:
                at = len(before.split("\n")) + text.count("\n")
                self.same("BTOR2.md", self.answer("btorsim --cycles 1", before + text), f"fault {number} at {at}:1\n")

    def forms(self, page):
        """The examples of BTOR2's forms, which are one file with the lines that the page says of them."""
        lines = ["1 sort bitvec 1", "4 sort bitvec 4", "11 input 1", "14 input 4"]
        for _, example, *_ in rows_of(page, "| form | example"):
            lines += ticked(example)
        self.same("BTOR2.md, the forms", self.answer("btorsim --cycles 1", "\n".join(lines))[:4], "@0 -")
        self.refusals(page)

    def gates(self, page):
        """The gates of operators at each width."""
        for operator, gates in rows_of(page, "| operator at w bits"):
            for width, wanted in zip((8, 32, 64, 128), gates.split(", ")):
                design = (f"reg r : bits {width} = {width}'d0; input a : bits {width};"
                          f"rule x {{ write0(r, {ticked(operator)[0]}) }} schedule {{ x; }}")
                said = self.answer("aiger", design).split("\n")[0]
                self.same(f"AIGER.md, {operator} of {width}", said.split(" ")[-1], wanted.replace(",", ""))
        self.words(page)

    def tokens(self, page):
        """Each example of a fault of tokens, and whether all designs of examples/ are in their table."""
        named = {name for designs, _ in rows_of(page, "| design | what it shows") for name in ticked(designs)}
        there = {name[:-6] for name in os.listdir(os.path.join(self.pages.top, "examples")) if name.endswith(".koika")}
        self.same("LANGUAGE.md, the examples", sorted(named), sorted(there | {"systolic/array", "riscv/core.koika.in"}))
        for number, _, examples in rows_of(page, "| fault | where | examples"):
            for example in ticked(examples):
                self.same(f"LANGUAGE.md, {example}", self.answer("check", example).split(" ")[1], number)

    def habits(self, page):
        """Each habit is refused as its row says, and what is to be written instead isn't, where it is code."""
        for written, number, instead in rows_of(page, "| written | fault"):
            number = number.split(" ")[0]
            for example in ticked(written) if written.startswith("`") else [written]:
                said = self.answer("check", habit(example, "stimulus" in written))
                self.same(f"FAULTS.md, {example}", said.split(" ")[1], number)
            for example in ticked(instead):
                is_code = re.search(r"\w[ (\[=]", example) and ".." not in example and "stimulus" not in written
                if is_code and not example.startswith("write0(c"):
                    said = self.answer("check", habit(example, False))
                    self.same(f"FAULTS.md, {example}", said.split(" ")[0], "ok")

    def small_sources(self, page):
        """Each fault of the lab with its small source."""
        with open(page, encoding="utf-8") as text:
            command = re.search(r"small source for `([^`]*)`", text.read())[1]
        for number, _, _, source, place, _ in rows_of(page, "| fault | meaning"):
            self.same(f"LAB.md, {source}", self.answer(command, ticked(source)[0]), f"fault {number} at {place}\n")

    def words(self, page):
        """Each example of latches that are words."""
        for symbols, words in rows_of(page, "| symbols of latches"):
            names = [None if part == "none" else ticked(part) for part in symbols.split(", ")]
            if " to " in symbols:
                names = [[f"w[{k}]"] for k in range(129)]
            count = len(names)
            text = latches(count, lambda k: "")
            text = re.sub(r"\nl\d+ $", "", text, flags=re.M).split("\nl0")[0]
            text += "".join(f"\nl{k} {name[0]}" for k, name in enumerate(names) if name)
            shown = [word.split("=")[0] for word in self.answer("aigsim --cycles 0", text).split()[2:]]
            self.same(f"AIGER.md, {symbols}", shown, ticked(words))

    def journals(self, page):
        """Each design's weight and the cycles of its longest journal."""
        for design, weight, cycles in rows_of(page, "| design | weight | cycles of"):
            name = ticked(design)[0]
            if name.startswith("./koika"):
                source = self.answer(name[8:], "")
            else:
                with open(os.path.join(self.pages.top, name), encoding="utf-8") as file:
                    source = file.read()
            most = int(cycles.replace(",", ""))
            said = self.answer("check", source).split("weight=")[-1].strip()
            self.same(f"JOURNAL.md, {name}", said, weight.replace(",", ""))
            for number in (most, most + 1):
                said = self.answer(f"sim --workers 1 --journal --cycles {number}", source).split(" ")[0]
                self.same(f"JOURNAL.md, {name} {number}", said, "fault" if number > most else "journal")


def readme(pages, page):
    """The README has at most 80 lines of 120 columns, and says about how much one has to believe for `sim`
    and for all of `run`."""
    with open(page, encoding="utf-8") as text:
        lines = text.read().rstrip("\n").split("\n")
    counts = subprocess.run(["bench/believe.sh", "--counts"], stdout=subprocess.PIPE, check=True).stdout.decode()
    for what, said in (("`sim`", r"about ([0-9,]+) definitions in ([0-9,]+) lines"), ("all that `run` says", r"all of `run` it is ([0-9,]+) in ([0-9,]+)\.")):
        there = re.search(what + r" \| ([0-9,]+) \| ([0-9,]+)", counts).groups()
        found = re.search(said, " ".join(lines))
        if not found:
            pages.say("README.md", f"it doesn't say how much one has to believe for {what}")
            continue
        for number, claimed in zip(there, found.groups()):
            number, claimed = int(number.replace(",", "")), int(claimed.replace(",", ""))
            if abs(number - claimed) > number / 20:
                pages.say("README.md", f"about {claimed} to believe for {what}, and there are {number}")
    if len(lines) > 80:
        pages.say("README.md", f"{len(lines)} lines")
    for number, line in enumerate(lines, 1):
        if len(line) > 120:
            pages.say(f"README.md:{number}", f"{len(line)} columns")


def main():
    """Tries each page that is named."""
    pages = Pages(sys.argv[1])
    tables = Tables(pages, sys.argv[1])
    of_tables = {"FAULTS.md": tables.habits, "LANGUAGE.md": tables.tokens, "LIMITS.md": tables.limits,
                 "BTOR2.md": tables.forms, "AIGER.md": tables.gates, "JOURNAL.md": tables.journals,
                 "LAB.md": tables.small_sources}
    for page in sys.argv[2:]:
        name = os.path.basename(page)
        pages.page(page)
        pages.links(page)
        if name in of_tables:
            of_tables[name](page)
        if page == "README.md":
            readme(pages, page)
    names = {os.path.basename(page) for page in sys.argv[2:]}
    listed = [(page, name) for page, _, name in FILES] + [(page, first) for page, first, *_ in SCRIPTS]
    for of_page, what in listed:
        if of_page in names and (of_page, what) not in pages.used:
            pages.say(of_page, f"no listing for {what}")
    said = "some wrong" if pages.wrong else "all right"
    left_out = "".join(f"; {count} left out without {tool}" for tool, count in pages.skipped.items())
    print(f"{pages.tried} commands, {said}{left_out}")
    return 1 if pages.wrong else 0


sys.exit(main())
