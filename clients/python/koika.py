"""Drives a koika design from Python, cycle by cycle.

    from koika import Design

    with Design("examples/fifo.koika") as d:
        row = d.step(ready=1)          # one cycle; inputs that aren't given are 0
        row.fired                      # the rules that fired: ("put",)
        row["next"]                    # a register after the cycle: 1
        row["head"].full               # a field of a struct
        d.cycle                        # 1

The program that runs the design is `./koika step`. It reads a line of inputs, writes the row of that cycle, and only
then reads on. So inputs may answer to rows, as those of a test bench do.

Inputs and registers go by the names of the design. A value is

    bits N         an int
    an enum        a `Member`: an int with a `name`; to give one, also "Idle" or "State::Idle"
    a struct       a `Fields`: value.full or value["full"]; to give one, a mapping with all its fields
    an array       a tuple; to give one, a sequence of all its items

and every type also takes its bits as an int. `Row.bits` and `int(value)` give them.

A source that the program refuses raises `Fault`, with the fault's number, its place and the line there. A rule that is
marked by `assert` and fires raises `Violation`. Where the program ends otherwise, `ProgramEnded` says how.

It needs Python 3.8 or later on Linux, and nothing else.
"""
from __future__ import annotations

import operator
import os
import re
import select
import shutil
import subprocess
from typing import Any, Dict, Iterable, Iterator, List, Mapping, Optional, Sequence, Set, TextIO, Tuple, Union

__all__ = [
    "Array", "Bits", "Design", "Enum", "Fault", "Fields", "KoikaError", "Member", "ProgramEnded", "Row", "Struct",
    "Type", "Violation",
]

# ---- errors ---------------------------------------------------------------------------------------------------------

# What a fault means, as docs/FAULTS.md says.
MEANINGS = {
    10: "a byte that begins or continues no token",
    11: "a token that the grammar doesn't allow there, or a text that ends too early",
    12: "a 65th bracket is open",
    13: "a literal or a number that is out of its range",
    14: "a name of more than 64 bytes",
    20: "a name of the wanted kind that isn't declared above",
    21: "a name that is declared already",
    22: "wrong type",
    23: "wrong width, or a width, a length, an index or a bound out of its range",
    24: "a wrong field or member",
    25: "a wrong number of arguments",
    27: "a rule that is twice on a path of the schedule",
    28: "a wrong number of entries of a table",
    29: "no host function with this name and these widths exists",
    30: "a malformed assignment, or a second one of an input in a line",
    31: "no input of this name",
    32: "a value that isn't below 2 to the input's width",
    40: "a source that is too long",
    41: "more than 256 registers",
    42: "more than 256 rules",
    43: "more than 1,024 nodes of the scheduler",
    44: "a weight above 32,768",
    45: "a run that is too long",
    46: "a depth above 512",
    47: "more than 256 inputs",
}


class KoikaError(Exception):
    """What is wrong with a design, its run or its program."""


class Fault(KoikaError):
    """The program refused the design or a line of inputs.

    number: the fault's number (docs/FAULTS.md).
    line, column: its place in the design's file, from 1; in a line of inputs, `line` is 0. 0, 0: the design as a whole.
    cycle: the cycle whose line of inputs is refused; 0 where the design is.
    text: the design's line, or the line of inputs.
    """

    def __init__(self, number: int, line: int, column: int, cycle: int, text: str, name: str) -> None:
        if cycle and column:
            place = f"{name}, the inputs of cycle {cycle}, column {column}"
        elif cycle:
            place = f"{name}, cycle {cycle}"
        else:
            place = f"{name}:{line}:{column}" if line else name
        said = f"{place}: fault {number}: {MEANINGS.get(number, 'see docs/FAULTS.md')}"
        if column:
            # A caret below the place, after the tabs of the line. Columns count bytes.
            before = text.encode()[: column - 1].decode(errors="replace")
            said += f"\n    {text}\n    " + re.sub(r"[^\t]", " ", before) + "^"
        super().__init__(said)
        self.number = number
        self.line = line
        self.column = column
        self.cycle = cycle
        self.text = text


class Violation(KoikaError):
    """Rules that are marked by `assert` have fired.

    violated: their names, each with the first cycle in which it fired.
    row: the row of the cycle; none where `Design.close` raises it.
    """

    def __init__(self, violated: Mapping[str, int], row: Optional[Row] = None) -> None:
        said = [f"violated {name} at {cycle}" for name, cycle in violated.items()]
        if row is not None:
            said.append(f"    inputs: {row.stimulus or 'all 0'}\n    {row.text}")
        super().__init__("\n".join(said))
        self.violated = dict(violated)
        self.row = row


class ProgramEnded(KoikaError):
    """The program ended before the run did, or wrote something else than a run.

    status: its exit status; negative where a signal ended it.
    output: what it wrote last.
    """

    def __init__(self, what: str, status: int, output: str) -> None:
        super().__init__(what + (f"\n    {output[:200]}" if output else ""))
        self.status = status
        self.output = output


STATUSES = {
    0: "it ended too early, or wrote something else than a run",
    1: "invalid arguments",
    3: "reading failed",
    4: "writing failed",
    5: "out of memory",
    6: "an argument, or the program's own path, isn't UTF-8",
    7: "the program can't be proved and built",
}


# ---- types and values -----------------------------------------------------------------------------------------------


class Type:
    """A type of a design: its width in bits, and how values are packed into bits."""

    def __init__(self, width: int) -> None:
        self.width = width

    def pack(self, value: Any) -> int:
        """The bits of a value. Each type takes its bits as an int; ValueError and TypeError say what doesn't fit."""
        try:
            bits = operator.index(value)
        except TypeError:
            raise TypeError(f"{value!r} is no value of {self}") from None
        if not 0 <= bits < 1 << self.width:
            raise ValueError(f"{bits} is no value of {self}, which has {self.width} bits")
        return bits

    def unpack(self, bits: int) -> Any:
        """The value of these bits."""
        raise NotImplementedError

    def __repr__(self) -> str:
        return f"<{self}>"


class Bits(Type):
    """`bits N`: its values are ints."""

    def __str__(self) -> str:
        return f"bits {self.width}"

    def unpack(self, bits: int) -> int:
        return bits


class Member(int):
    """A value of an enum: its bits, with the name of the first member that has them, or "" where none has."""

    name: str
    enum: str

    def __new__(cls, bits: int, enum: str, name: str) -> Member:
        it = super().__new__(cls, bits)
        it.name = name
        it.enum = enum
        return it

    def __repr__(self) -> str:
        return f"{self.enum}::{self.name}" if self.name else f"{self.enum}::?{int(self)}"

    __str__ = __repr__


class Enum(Type):
    """An enum of the design. `State["Idle"]` is its member; `members` has the bits of each."""

    def __init__(self, name: str, width: int, members: Mapping[str, int]) -> None:
        super().__init__(width)
        self.name = name
        self.members = dict(members)
        self._names: Dict[int, str] = {}
        for member, bits in members.items():
            self._names.setdefault(bits, member)

    def __str__(self) -> str:
        return self.name

    def __getitem__(self, member: str) -> Member:
        return Member(self.members[member], self.name, member)

    def pack(self, value: Any) -> int:
        if isinstance(value, str):
            enum, _, member = value.rpartition("::")
            if enum not in ("", self.name) or member not in self.members:
                raise ValueError(f"{value!r} is no member of {self}: {', '.join(self.members)}")
            return self.members[member]
        return super().pack(value)

    def unpack(self, bits: int) -> Member:
        return Member(bits, self.name, self._names.get(bits, ""))


class Fields(Mapping[str, Any]):
    """A value of a struct: `value.full` or `value["full"]`. It equals a dict of its fields; `int(value)`: its bits."""

    __slots__ = ("_bits", "_type")

    def __init__(self, struct: Struct, bits: int) -> None:
        self._type = struct
        self._bits = bits

    def __getitem__(self, field: str) -> Any:
        low, of_type = self._type.places[field]
        return of_type.unpack(self._bits >> low & ((1 << of_type.width) - 1))

    def __getattr__(self, field: str) -> Any:
        if field in Fields.__slots__ or field not in self._type.places:
            raise AttributeError(f"{self._type} has no field {field}")
        return self[field]

    def __iter__(self) -> Iterator[str]:
        return iter(self._type.fields)

    def __len__(self) -> int:
        return len(self._type.fields)

    def __int__(self) -> int:
        return self._bits

    def __hash__(self) -> int:
        return hash(frozenset(self.items()))

    def __repr__(self) -> str:
        return f"{self._type}::{{ " + ", ".join(f"{name}: {value!r}" for name, value in self.items()) + " }"

    def replaced(self, **fields: Any) -> Fields:
        """The same value with other values of these fields."""
        return Fields(self._type, self._type.pack({**self, **fields}))


class Struct(Type):
    """A struct of the design: the types of its fields in order. Its first field has the highest bits."""

    def __init__(self, name: str, fields: Mapping[str, Type]) -> None:
        super().__init__(sum(of_type.width for of_type in fields.values()))
        self.name = name
        self.fields = dict(fields)
        self.places: Dict[str, Tuple[int, Type]] = {}
        low = self.width
        for field, of_type in self.fields.items():
            low -= of_type.width
            self.places[field] = low, of_type

    def __str__(self) -> str:
        return self.name

    def pack(self, value: Any) -> int:
        if not isinstance(value, Mapping):
            return super().pack(value)
        if set(value) != set(self.fields):
            raise ValueError(f"{self} has the fields {', '.join(self.fields)}, and not {', '.join(map(str, value))}")
        bits = 0
        for field, (low, of_type) in self.places.items():
            bits |= of_type.pack(value[field]) << low
        return bits

    def unpack(self, bits: int) -> Fields:
        return Fields(self, bits)


class Array(Type):
    """An array: the type of its items and their number. Item 0 has the lowest bits."""

    def __init__(self, item: Type, length: int) -> None:
        super().__init__(item.width * length)
        self.item = item
        self.length = length

    def __str__(self) -> str:
        return f"[{self.item}; {self.length}]"

    def pack(self, value: Any) -> int:
        if not isinstance(value, Sequence) or isinstance(value, (str, bytes)):
            return super().pack(value)
        if len(value) != self.length:
            raise ValueError(f"{self} has {self.length} items, and not {len(value)}")
        bits = 0
        for index, item in enumerate(value):
            bits |= self.item.pack(item) << index * self.item.width
        return bits

    def unpack(self, bits: int) -> Tuple[Any, ...]:
        width, mask = self.item.width, (1 << self.item.width) - 1
        return tuple(self.item.unpack(bits >> index * width & mask) for index in range(self.length))


# ---- the printed design ---------------------------------------------------------------------------------------------


class Declared:
    """What a design declares, taken from its printed form: its tokens with blanks between them (docs/FORMATS.md)."""

    def __init__(self, printed: str) -> None:
        self.types: Dict[str, Type] = {}
        self.inputs: Dict[str, Type] = {}
        self.registers: Dict[str, Type] = {}
        self.rules: List[str] = []
        self.assertions: List[str] = []
        self._tokens = printed.split()
        self._at = 0
        while True:
            word = self._next()
            if word == "schedule":
                break
            if word == "table" or word == "fun":
                self._skip_block()
            elif word == "host":
                self._skip_to(";")
            else:
                self._declaration(word, self._next())

    def _next(self) -> str:
        token = self._tokens[self._at]
        self._at += 1
        return token

    def _skip_to(self, wanted: str) -> None:
        while self._next() != wanted:
            pass

    def _skip_block(self) -> None:
        """Skips what comes before a block, and the block."""
        self._skip_to("{")
        is_open = 1
        while is_open:
            token = self._next()
            is_open += (token == "{") - (token == "}")

    def _declaration(self, word: str, name: str) -> None:
        if word == "rule":
            self.rules.append(name)
            self._skip_block()
        elif word == "assert":
            self.assertions.append(name)
            self._skip_to(";")
        elif word == "struct":
            self._skip_to("{")
            fields: Dict[str, Type] = {}
            while not fields or self._next() == ",":
                field = self._next()
                self._skip_to(":")
                fields[field] = self._type()
            self.types[name] = Struct(name, fields)
        elif word == "enum":
            self._skip_to("bits")
            width = int(self._next())
            self._skip_to("{")
            members: Dict[str, int] = {}
            while not members or self._next() == ",":
                member = self._next()
                self._skip_to("=")
                members[member] = int(self._next().partition("'d")[2])
            self.types[name] = Enum(name, width, members)
        else: # a register or an input
            self._skip_to(":")
            (self.inputs if word == "input" else self.registers)[name] = self._type()
            self._skip_to(";")

    def _type(self) -> Type:
        word = self._next()
        if word == "bits":
            return Bits(int(self._next()))
        if word != "[":
            return self.types[word]
        item = self._type()
        self._skip_to(";")
        length = int(self._next())
        self._skip_to("]")
        return Array(item, length)


# ---- the program at the other end of the pipes ----------------------------------------------------------------------


class Pipes:
    """A program, with a pipe to its standard input and one from its standard output.

    Neither end ever waits for the other one to read: texts of any length pass without a deadlock.
    """

    def __init__(self, words: Sequence[str], timeout: Optional[float]) -> None:
        # The exceptions here explain faults, so the launcher needn't.
        self._process = subprocess.Popen(
            words, stdin=subprocess.PIPE, stdout=subprocess.PIPE, bufsize=0, env={**os.environ, "KOIKA_EXPLAIN": "0"})
        assert self._process.stdin and self._process.stdout
        self._input, self._output = self._process.stdin, self._process.stdout
        os.set_blocking(self._input.fileno(), False)
        os.set_blocking(self._output.fileno(), False)
        self._timeout = timeout
        self._unread = b""  # what was read, and no line of it taken
        self._has_ended = False  # whether the output was read to its end

    def exchange(self, sent: bytes, lines: int) -> List[bytes]:
        """Sends a text, and returns the next lines of the output: this many, or fewer where it ends before."""
        left = memoryview(sent)
        left = left[self._write(left):]
        while (left or self._unread.count(b"\n") < lines) and not self._has_ended:
            left = self._pump(left)
        *found, self._unread = self._unread.split(b"\n", lines)
        return found

    def finish(self) -> Tuple[int, bytes]:
        """Ends the input; returns the exit status and what is left of the output."""
        self._input.close()
        while not self._has_ended:
            self._pump(memoryview(b""))
        self._output.close()
        return self._process.wait(self._timeout), self._unread

    def kill(self) -> None:
        """Ends the program, and closes the pipes."""
        self._input.close()
        self._output.close()
        self._process.kill()
        self._process.wait()

    def _pump(self, left: memoryview) -> memoryview:
        """Waits until the program has written something, or takes more; returns what is left to send."""
        poll = select.poll()
        poll.register(self._output.fileno(), select.POLLIN)
        if left:
            poll.register(self._input.fileno(), select.POLLOUT)
        if not poll.poll(None if self._timeout is None else self._timeout * 1000):
            raise TimeoutError(f"the program didn't answer in {self._timeout} seconds")
        left = left[self._write(left):]
        try:
            piece = os.read(self._output.fileno(), 1 << 16)
        except BlockingIOError:
            return left
        self._unread += piece
        self._has_ended = not piece
        return left

    def _write(self, left: memoryview) -> int:
        """How many bytes the program took. One that reads no further takes all: what it wrote says why."""
        try:
            return os.write(self._input.fileno(), left) if left else 0
        except BlockingIOError:
            return 0
        except BrokenPipeError:
            return len(left)


def programs(program: Optional[str], lab: Optional[str]) -> Tuple[str, str]:
    """The program that answers `print`, and the one that answers `step`."""
    if program:
        return program, lab or program
    program = os.environ.get("KOIKA")
    if not program:
        launcher = os.path.join(os.path.dirname(os.path.realpath(__file__)), "..", "..", "koika")
        program = os.path.normpath(launcher) if os.path.isfile(launcher) else shutil.which("koika")
    if not program:
        raise FileNotFoundError("there is no koika: name the program, or set KOIKA to its path")
    return program, lab or os.environ.get("KOIKA_LAB") or program


# ---- runs -----------------------------------------------------------------------------------------------------------


class Row(Mapping[str, Any]):
    """One cycle of a run: `row["count"]` is a register after the cycle.

    cycle: its number; that of the first values is 0.
    fired: the rules that fired, in order of declaration.
    text: the line of the report.
    stimulus: the line of inputs.
    """

    __slots__ = ("cycle", "fired", "text", "stimulus", "_values", "_places")

    def __init__(self, text: str, stimulus: str, places: Mapping[str, Tuple[int, Type]]) -> None:
        words = text.split(" ")
        self.cycle = int(words[0][1:])
        self.fired: Tuple[str, ...] = () if words[1] == "-" else tuple(words[1].split(","))
        self.text = text
        self.stimulus = stimulus
        self._values = words[2:]
        self._places = places

    def bits(self, register: str) -> int:
        """The bits of a register."""
        if register not in self._places:
            raise KeyError(f"the design has no register {register}")
        return int(self._values[self._places[register][0]].rpartition("=")[2], 16)

    def __getitem__(self, register: str) -> Any:
        bits = self.bits(register)
        return self._places[register][1].unpack(bits)

    def __contains__(self, register: object) -> bool:
        return register in self._places

    def __iter__(self) -> Iterator[str]:
        return iter(self._places)

    def __len__(self) -> int:
        return len(self._places)

    def __repr__(self) -> str:
        values = "".join(f" {name}={value!r}" for name, value in self.items())
        return f"@{self.cycle} {','.join(self.fired) or '-'}{values}"

    def __str__(self) -> str:
        return self.text


class Design:
    """A design that runs, cycle by cycle. Use it in a `with`, or `close` it.

    name: the design's file.
    types, inputs, registers: what the design declares, by name and in order.
    rules, assertions: the names of its rules, and of those that are marked by `assert`.
    stimulus: the lines after `%%` in the file. They aren't run by themselves: `for row in d.run(d.stimulus)` does it.
    row: the row of the last cycle; before the first one it has the first values.
    violated: the assertions that have fired, each with its first cycle.
    """

    def __init__(self, path: Union[str, os.PathLike[str], None] = None, *, text: Optional[str] = None,
                 record: Union[str, os.PathLike[str], None] = None, stops_at_violation: bool = True,
                 program: Optional[str] = None, lab: Optional[str] = None, timeout: Optional[float] = None) -> None:
        """Starts the program on a design, which is a file or a text.

        record: a file that gets the inputs, a line for each cycle: the stimulus for `why` and `waves` of this run.
        stops_at_violation: whether `step` and `run` raise a `Violation` in its cycle. If not, `close` does.
        program: the program that answers `print` and `step`. Without it, that is the environment's KOIKA, else ./koika
            of the repository that this file is in, else `koika` on the PATH. ./koika builds what isn't built yet.
        lab: another program for `step`. Without it, that is `program`, or if that isn't given, the environment's
            KOIKA_LAB.
        timeout: for how many seconds at most an answer is waited for, before there is a TimeoutError.
        """
        if path is not None:
            with open(path, encoding="utf-8", errors="surrogateescape", newline="") as file:
                text = file.read()
        elif text is None:
            raise TypeError("a design is a path or a text")
        self.name = "design" if path is None else os.fspath(path)
        source, self.stimulus = parts_of(text)
        self._lines = source.split("\n")
        self._timeout = timeout
        self._stops = stops_at_violation
        self.violated: Dict[str, int] = {}
        self._unraised: Set[str] = set()
        self._pipes: Optional[Pipes] = None
        self._record: Optional[TextIO] = None

        printer, stepper = programs(program, lab)
        declared = self._declared(printer, source)
        self.types, self.inputs, self.registers = declared.types, declared.inputs, declared.registers
        self.rules, self.assertions = tuple(declared.rules), tuple(declared.assertions)
        self._marks = frozenset(self.assertions)
        self._places = {name: (index, of_type) for index, (name, of_type) in enumerate(self.registers.items())}

        if not source.endswith("\n"):
            source += "\n"
        self._words = [stepper, "step"]
        self._pipes = Pipes(self._words, timeout)
        rows, error = self._exchange(0, [""], source + "%%\n")
        if error:
            raise error
        self.row = rows[0]
        if record is not None:
            try:
                self._record = open(record, "w", encoding="utf-8", errors="surrogateescape", newline="\n")
            except BaseException:
                self._kill()
                raise

    def __enter__(self) -> Design:
        return self

    def __exit__(self, kind: object, error: object, trace: object) -> None:
        if kind is None:
            self.close()
        else:
            self._kill()

    @property
    def cycle(self) -> int:
        """How many cycles were run."""
        return self.row.cycle

    def enum(self, name: str) -> Enum:
        """An enum of the design."""
        found = self.types.get(name)
        if not isinstance(found, Enum):
            raise KeyError(f"the design has no enum {name}")
        return found

    def step(self, values: Optional[Mapping[str, Any]] = None, /, **inputs: Any) -> Row:
        """Runs a cycle with these inputs, given by name or as a mapping; those that aren't given are 0.

        A name or a value that doesn't fit raises KeyError, ValueError or TypeError, and no cycle is run.
        """
        return self.send(self.line({**values, **inputs} if values else inputs))

    def line(self, inputs: Mapping[str, Any]) -> str:
        """The line of a stimulus that gives these inputs."""
        said = []
        for name, value in inputs.items():
            of_type = self.inputs.get(name)
            if of_type is None:
                raise KeyError(f"the design has no input {name}; it has {', '.join(self.inputs) or 'none'}")
            try:
                said.append(f"{name}={of_type.pack(value)}")
            except (TypeError, ValueError) as error:
                raise type(error)(f"input {name}: {error}") from None
        return " ".join(said)

    def send(self, line: str) -> Row:
        """Runs a cycle with a line of a stimulus, as it is. If the program refuses it, that raises `Fault`."""
        rows, error = self._exchange(self.cycle + 1, [line])
        if error:
            raise error
        self._look(rows[0])
        return rows[0]

    def run(self, stimuli: Iterable[Union[str, Mapping[str, Any]]]) -> Iterator[Row]:
        """Runs a cycle for each of these inputs, which are mappings or lines, and gives the rows.

        It sends up to 256 lines before it gives their rows. So it is quicker than `step`, but inputs can't answer to
        rows, and who stops in between finds that `row` is some cycles further.
        """
        batch: List[str] = []
        for given in stimuli:
            batch.append(given if isinstance(given, str) else self.line(given))
            if len(batch) == 256:
                yield from self._batch(batch)
                batch = []
        if batch:
            yield from self._batch(batch)

    def close(self) -> None:
        """Ends the run, and raises the violations that weren't raised before. A second call does nothing."""
        if self._pipes is None:
            return
        status, output = self._finish(self._pipes)
        violated = [f"violated {name} at {self.violated[name]}\n" for name in self.assertions if name in self.violated]
        if status != 0 or output != "".join(violated):
            raise self._error(status, output)
        if self._unraised:
            raise Violation({name: self.violated[name] for name in self.assertions if name in self._unraised})

    # What these are made of.

    def _declared(self, program: str, source: str) -> Declared:
        """What the design declares, by its printed form."""
        self._words = [program, "print"]
        pipes = Pipes(self._words, self._timeout)
        try:
            pipes.exchange(source.encode("utf-8", "surrogateescape"), 0)
        except BaseException:
            pipes.kill()
            raise
        status, output = self._finish(pipes)
        try:
            if status == 0:
                return Declared(output)
        except (IndexError, KeyError, ValueError):
            pass
        raise self._error(status, output)

    def _exchange(self, cycle: int, lines: Sequence[str], sent: str = "") -> Tuple[List[Row], Optional[KoikaError]]:
        """Sends these lines of a stimulus, from this cycle on, or another text that is answered by as many rows.

        Returns the rows, and if there are fewer of them, what went wrong.
        """
        if self._pipes is None:
            raise ValueError("the run has ended")
        for line in lines:
            if "\n" in line:
                raise ValueError(f"{line!r} is more than one line")
        sent = sent or "".join(line + "\n" for line in lines)
        if self._record is not None:
            self._record.write(sent)
        try:
            answers = self._pipes.exchange(sent.encode("utf-8", "surrogateescape"), len(lines))
        except BaseException:
            self._kill()
            raise
        rows: List[Row] = []
        for line, answer in zip(lines, answers):
            if not answer.startswith(b"@%d " % (cycle + len(rows))):
                break
            row = Row(answer.decode(), line, self._places)
            rows.append(row)
            self.row = row
            for name in self._marks.intersection(row.fired):
                if self.violated.setdefault(name, row.cycle) == row.cycle:
                    self._unraised.add(name)
        if len(rows) == len(lines):
            return rows, None
        rest = b"".join(answer + b"\n" for answer in answers[len(rows):]).decode(errors="replace")
        status, output = self._finish(self._pipes)
        return rows, self._error(status, rest + output, cycle + len(rows), lines[len(rows)])

    def _batch(self, lines: Sequence[str]) -> Iterator[Row]:
        """Runs a cycle for each of these lines, and gives the rows."""
        rows, error = self._exchange(self.cycle + 1, lines)
        for row in rows:
            self._look(row)
            yield row
        if error:
            raise error

    def _look(self, row: Row) -> None:
        """Raises the violations of a row."""
        if not self._stops or not self._unraised:
            return
        violated = [name for name in self.assertions if name in self._unraised and self.violated[name] == row.cycle]
        if violated:
            self._unraised.difference_update(violated)
            raise Violation(dict.fromkeys(violated, row.cycle), row)

    def _finish(self, pipes: Pipes) -> Tuple[int, str]:
        """Ends the program's input; returns its exit status and what is left of its output."""
        self._pipes = None
        self._close_record()
        try:
            status, output = pipes.finish()
        except BaseException:
            pipes.kill()
            raise
        return status, output.decode(errors="replace")

    def _close_record(self) -> None:
        if self._record is not None:
            self._record.close()
            self._record = None

    def _kill(self) -> None:
        """Ends the program, if it runs."""
        self._close_record()
        if self._pipes is not None:
            self._pipes.kill()
            self._pipes = None

    def _error(self, status: int, output: str, cycle: int = 0, line: str = "") -> KoikaError:
        """What the end of the program means, in a cycle with this line of inputs, or in 0."""
        found = re.fullmatch(r"fault (\d+) at (\d+):(\d+)\n", output)
        if status == 2 and found:
            number, at, column = map(int, found.groups())
            if cycle:
                return Fault(number, 0, column, cycle, line, self.name)
            text = self._lines[at - 1] if 0 < at <= len(self._lines) else ""
            return Fault(number, at, column, 0, text.rstrip("\r"), self.name)
        why = STATUSES.get(status, "a signal ended it" if status < 0 else "another program?")
        if status == 1 and self._words[1:] == ["step"]:
            why += ", or a program without `step`; KOIKA_LAB may name another one"
        return ProgramEnded(f"`{' '.join(self._words)}` ended with status {status}: {why}", status, output.rstrip("\n"))


def parts_of(text: str) -> Tuple[str, List[str]]:
    """The design of a source, and the lines of its stimulus, which are after its first line `%%`."""
    mark = re.search(r"^%%\r?(\n|\Z)", text, re.MULTILINE)
    if not mark:
        return text, []
    lines = [line[:-1] if line.endswith("\r") else line for line in text[mark.end():].split("\n")]
    if lines[-1] == "":
        lines.pop()
    return text[: mark.start()], lines
