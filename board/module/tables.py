#!/usr/bin/env python3
"""tables.py MODULE >ANOTHER: const tables in read-only memory.

The kit lends a const table from read-only memory itself, as a private constant; but one that a function takes by value, as an array written out in place,
it fills on the stack, by zeros and then a run of constant stores. Here such a run becomes one copy from a private constant of the same bytes, in its place;
where the array is only read afterwards, LLVM itself leaves the copy out and reads the constant.

A run is taken only when it is the array's first use but for those zeros, begins at its first byte, goes on in order with neither gap nor overlap, stores
constants and nothing else, and ends with the array. The addresses it works out must have no other use. Whatever isn't so stays as it is; but an array of
64 bytes or more that begins with such a run and isn't taken is an error, since a table was probably meant. How many were taken is said, and how many
constants are the kit's own.
"""
import re
import sys

from llvm import Function, Module, Refused

LEAST = 16  # bytes: below this a copy gains nothing
SURELY_A_TABLE = 64

ARRAY = re.compile(r"^  (%\w+) = alloca \[(\d+) x i8\], align (\d+)$")
STORE = re.compile(r"^  store i(8|16|32|64) (-?\d+), ptr (%\w+), align \d+$")
ZEROS = re.compile(r"^  call void @llvm\.memset\.p0\.i64\(ptr (%\w+), i8 0, i64 (\d+), i1 false\)$")
OF_KIT = re.compile(r"^@static\.\d+ = private unnamed_addr constant \[\d+ x i8\] ")
ADDRESS = re.compile(r"^  (%\w+) = getelementptr (?:inbounds |nuw )*i8, ptr (%\w+), i64 (\d+)$")
VALUE = re.compile(r"%\w+")
COPY = "llvm.memcpy.p0.p0.i64"


def constant_store(lines, at, array, offset):
    """The bytes that lines[at:] store at this offset of the array, the lines that takes and the address it names; None if they do something else."""
    if offset == 0:
        store, address, taken = STORE.match(lines[at]), array, 1
    else:
        named = ADDRESS.match(lines[at])
        if not (named and named[2] == array and int(named[3]) == offset):
            return None
        store, address, taken = STORE.match(lines[at + 1]), named[1], 2
    if not (store and store[3] == address):
        return None
    width = int(store[1])
    return (int(store[2]) % (1 << width)).to_bytes(width // 8, "little"), taken, address


def run_at(lines, at, array, size):
    """The longest run of constant stores from lines[at] on: its bytes, how many stores and lines it has, and the addresses it names."""
    data, stores, end, addresses = b"", 0, at, []
    while len(data) < size:
        stored = constant_store(lines, end, array, len(data))
        if stored is None:
            break
        data, stores, end = data + stored[0], stores + 1, end + stored[1]
        addresses.append(stored[2])
    return data, stores, end - at, [a for a in addresses if a != array]


def uses(lines, names):
    """Whether a line uses one of these values."""
    return any(name in names for line in lines for name in VALUE.findall(line))


class Tables:
    """The constants of a module, and how many runs became copies of them."""

    def __init__(self):
        self.names = {}
        self.aligned = {}
        self.copies = 0

    def name(self, data, align):
        name = self.names.setdefault(data, f"@table.{len(self.names)}")
        self.aligned[name] = max(align, self.aligned.get(name, 1))
        return name

    def lines(self):
        for data, name in self.names.items():
            text = "".join(f"\\{byte:02X}" for byte in data)
            yield f'{name} = private unnamed_addr constant [{len(data)} x i8] c"{text}", align {self.aligned[name]}'

    def taken(self, function, at, array, size, align):
        """The copy in the place of the run that fills the array from this line on, and the lines of the run; nothing and 0 where it stays."""
        lines = function.lines
        data, stores, count, addresses = run_at(lines, at, array, size)
        if size >= LEAST and len(data) == size and not uses(lines[at + count:], set(addresses)):
            self.copies += 1
            return [f"  call void @{COPY}(ptr align {align} {array}, ptr align {align} {self.name(data, align)}, i64 {size}, i1 false)"], count
        if size >= SURELY_A_TABLE and stores > 1:
            why = "an address in it is used again" if len(data) == size else f"the run ends after {len(data)}"
            raise Refused(f"{function.name}: {array} has {size} bytes and begins with a run of constants, but {why}")
        return [], 0

    def rewritten(self, function):
        """The function's lines with its runs taken."""
        lines, out, at = function.lines, [], 0
        unused = {}  # the arrays that no line has used so far, with size and alignment
        while at < len(lines):
            declared, zeros = ARRAY.match(lines[at]), ZEROS.match(lines[at])
            copy, count = [], 0
            if declared:
                unused[declared[1]] = int(declared[2]), int(declared[3])
            elif not (zeros and zeros[1] in unused and int(zeros[2]) == unused[zeros[1]][0]):
                for array in [name for name in VALUE.findall(lines[at]) if name in unused]:
                    size, align = unused.pop(array)
                    copy, count = self.taken(function, at, array, size, align)
            out += copy or [lines[at]]
            at += count or 1
        return out


def in_read_only_memory(text):
    """The module with its tables in read-only memory, and what became of it in a line."""
    module, tables = Module(text), Tables()
    for function in module.functions():
        function.lines = tables.rewritten(function)
    triple = next((i for i, part in enumerate(module.parts) if not isinstance(part, Function) and part.startswith("target triple")), None)
    if triple is None:
        raise Refused("no target triple")
    module.parts[triple + 1:triple + 1] = ["", *tables.lines()]
    if tables.copies and f"@{COPY}(" not in "\n".join(part for part in module.parts if not isinstance(part, Function)):
        module.parts.append(f"declare void @{COPY}(ptr noalias writeonly captures(none), ptr noalias readonly captures(none), i64, i1 immarg)\n")
    own = sum(1 for part in module.parts if not isinstance(part, Function) and OF_KIT.match(part))
    said = f"{tables.copies} runs of constant stores taken, {len(tables.names)} constants, {sum(map(len, tables.names))} bytes; {own} constants of the kit's own"
    return str(module), said


def main():
    if len(sys.argv) != 2:
        sys.exit("usage: tables.py MODULE")
    with open(sys.argv[1], encoding="utf-8") as module:
        try:
            text, said = in_read_only_memory(module.read())
        except Refused as why:
            sys.exit(f"tables: {why}")
    sys.stdout.write(text)
    print(f"tables: {said}", file=sys.stderr)


if __name__ == "__main__":
    main()
