#!/usr/bin/env python3
"""retarget.py HEADS MODULE >ANOTHER: the module of x86-64 for a board of 32 bits.

HEADS is a module of the board's triple, of which the data layout and the triple are taken. What changes:
  1. data layout, triple, and the attributes that name x86-64;
  2. of the exported functions, which make slices and hand on to the proved ones: a length is a size_t of 32 bits, widened with zeros where the slice
     is made, and an answer of 16 bytes goes where the caller says, as the C conventions of Arm and RISC-V have it, and not into two registers.
  3. in every other function: the kit lays what is behind a pointer 8 bytes on, as 64 bits have it, and so it lies on a board too. An aggregate of which a
     part would lie elsewhere on a board, as the pointer of an `Option<&T>`, is loaded and stored part by part, each where the kit has it.
A timing by value (byval) and VGA's timing (a pointer handed in and back) are what those conventions have already.

An exported function whose lines aren't all of known form is refused, and so is a module in which anything else would change or x86-64 is still named, or
which has an aggregate with a pointer in a place that isn't known, or an address that is taken for a number.
"""
import re
import sys

from llvm import Function, Module, Refused

X86_ATTRIBUTES = re.compile(r' "probe-stack"="inline-asm" "stack-probe-size"="3072" "target-cpu"="x86-64-v2"')

ANSWER = re.compile(r"^define \{ i64, i64 \} @(chaffrail_\w+)\((.*)\) (#\d+ \{)$")
PARAMETER = re.compile(r"^(?:(?:i8|i16|i32|ptr) noundef|ptr noundef byval\(\[40 x i8\]\) align 4) %a\d+$")
LENGTH = re.compile(r"^i64 noundef %a(\d+)$")
# The lines of an exported function: room for the answer, each slice's pointer (4096 in the place of null) and length, the call, the answer.
STORED_LENGTH = re.compile(r"^  store i64 %a(\d+), (ptr %r\d+, align 8)$")
RETURNED = re.compile(r"^  ret \{ i64, i64 \} (%r\d+)$")
KEPT = [re.compile(form) for form in (
    r"^start:$",
    r"^  %r\d+ = alloca \[16 x i8\], align [48]$",
    r"^  %r\d+ = icmp eq ptr %a\d+, null$",
    r"^  %r\d+ = zext i1 %r\d+ to i64$",
    r"^  %r\d+ = mul i64 %r\d+, 4096$",
    r"^  %r\d+ = getelementptr i8, ptr %a\d+, i64 %r\d+$",
    r"^  store ptr %r\d+, ptr %r\d+, align 8$",
    r"^  %r\d+ = getelementptr i8, ptr %r\d+, i64 8$",
    r"^  %r\d+ = load (?:ptr|i64), ptr %r\d+, align 1$",
    r'^  call void @"chaffrail::chaffrail_\w+"\(ptr %r0(?:, (?:(?:i8|i16|i32|ptr) %[ar]|i64 %r)\d+)*\)$',
    r"^  %r\d+ = load \{ i64, i64 \}, ptr %r0, align 4$",
    r"^\}$",
)]
RESULT_POINTER = [re.compile(form) for form in (
    r"^define noundef ptr @chaffrail_\w+\(ptr noundef %a0\) #\d+ \{$",
    r"^start:$",
    r'^  call void @"chaffrail::chaffrail_\w+"\(ptr %a0\)$',
    r"^  ret ptr %a0$",
    r"^\}$",
)]


def crossing(function):
    """The lines of an exported function as the boards' conventions have it."""
    lines = function.lines
    if len(lines) == len(RESULT_POINTER) and all(form.match(line) for form, line in zip(RESULT_POINTER, lines)):
        return lines
    head = ANSWER.match(lines[0])
    if not head:
        raise Refused(f"{function.name} has a form that isn't known: {lines[0]}")
    lengths, parameters = set(), ["ptr noundef sret([16 x i8]) align 4 %answer"]
    for parameter in filter(None, head[2].split(", ")):
        length = LENGTH.match(parameter)
        if length:
            lengths.add(length[1])
            parameters.append(f"i32 noundef %len{length[1]}")
        elif PARAMETER.match(parameter):
            parameters.append(parameter)
        else:
            raise Refused(f"{function.name} has a parameter that isn't known: {parameter}")
    out = [f"define void @{head[1]}({', '.join(parameters)}) {head[3]}"]
    for line in lines[1:]:
        stored, returned = STORED_LENGTH.match(line), RETURNED.match(line)
        if stored and stored[1] in lengths:
            lengths.remove(stored[1])
            out += [f"  %a{stored[1]} = zext i32 %len{stored[1]} to i64", f"  store i64 %a{stored[1]}, {stored[2]}"]
        elif returned:
            out += [f"  store {{ i64, i64 }} {returned[1]}, ptr %answer, align 4", "  ret void"]
        elif any(form.match(line) for form in KEPT):
            out.append(line)
        else:
            raise Refused(f"{function.name} has a line that isn't known: {line}")
    if lengths:
        raise Refused(f"{function.name} has a number of 64 bits that isn't a slice's length")
    return out


# ---- pointers in memory

AGGREGATE = re.compile(r"\{ [^{}]* \}")
LOADED = re.compile(r"^  (%\w+) = load (\{ [^{}]* \}), ptr (%\w+), align (\d+)$")
STORED = re.compile(r"^  store (\{ [^{}]* \}) (%\w+), ptr (%\w+), align (\d+)$")
ADDRESS = re.compile(r"\bptrto(addr|int)\b")
# As values, aggregates have no layout.
VALUES = re.compile(r"^(?:define|declare|  (?:%\w+ = )?(?:tail )?(?:call|extractvalue|insertvalue|phi|select|ret)) ")


def offsets(aggregate, pointer):
    """Where the parts of an aggregate lie, where a pointer has so many bytes."""
    places, end = [], 0
    for part in aggregate[2:-2].split(", "):
        number = re.match(r"^i(\d+)$", part)
        if not number and part != "ptr":
            raise Refused(f"an aggregate with a part that isn't known: {aggregate}")
        size = max(1, int(number[1]) // 8) if number else pointer
        if size not in (1, 2, 4, 8):
            raise Refused(f"an aggregate with a part that isn't known: {aggregate}")
        end += -end % size
        places.append(end)
        end += size
    return places


def lies_elsewhere(aggregate):
    return "ptr" in aggregate and offsets(aggregate, 4) != offsets(aggregate, 8)


def part_by_part(line, aggregate, value, address, align):
    """The same load or store, each part where 64 bits have it."""
    out, whole = [], "poison"
    parts = aggregate[2:-2].split(", ")
    for i, (part, offset) in enumerate(zip(parts, offsets(aggregate, 8))):
        place, one = address, f"{value}.part{i}"
        if offset:
            place = f"{value}.place{i}"
            out.append(f"  {place} = getelementptr i8, ptr {address}, i64 {offset}")
        known = min(int(align), offset & -offset) if offset else int(align)
        if STORED.match(line):
            out += [f"  {one} = extractvalue {aggregate} {value}, {i}", f"  store {part} {one}, ptr {place}, align {known}"]
        else:
            name = value if i + 1 == len(parts) else f"{value}.first{i + 1}"
            out += [f"  {one} = load {part}, ptr {place}, align {known}", f"  {name} = insertvalue {aggregate} {whole}, {part} {one}, {i}"]
            whole = name
    return out


def at_32_bits(lines):
    """The lines of a function that isn't exported, for a board."""
    out = []
    for line in lines:
        loaded, stored = LOADED.match(line), STORED.match(line)
        elsewhere = [a for a in AGGREGATE.findall(line) if lies_elsewhere(a)]
        if ADDRESS.search(line):
            raise Refused(f"an address that is taken for a number: {line}")
        if not elsewhere or VALUES.match(line):
            out.append(line)
        elif loaded:
            out += part_by_part(line, loaded[2], loaded[1], loaded[3], loaded[4])
        elif stored:
            out += part_by_part(line, stored[1], stored[2], stored[3], stored[4])
        else:
            raise Refused(f"an aggregate with a pointer in a line that isn't known: {line}")
    return out


def heads_of(text):
    """The data layout and the triple of a module."""
    heads = {}
    for line in text.split("\n"):
        found = re.match(r"^target (datalayout|triple) = ", line)
        if found:
            heads[found[1]] = line
    if set(heads) != {"datalayout", "triple"}:
        raise Refused("no data layout and triple to take")
    return heads


def outside_functions(line, heads):
    """A line between functions, for the board."""
    found = re.match(r"^target (datalayout|triple) = ", line)
    if found:
        return heads[found[1]]
    if line.startswith("@") and "ptr" in line:
        raise Refused(f"a constant with a pointer: {line}")
    return X86_ATTRIBUTES.sub("", line) if line.startswith("attributes ") else line


def retargeted(text, heads):
    module = Module(text)
    for i, part in enumerate(module.parts):
        if not isinstance(part, Function):
            module.parts[i] = outside_functions(part, heads)
        else:
            part.lines = at_32_bits(part.lines) if part.internal else crossing(part)
    out = str(module)
    before, after = ([f.lines for f in Module(t).functions() if f.internal] for t in (text, out))
    if [at_32_bits(lines) for lines in before] != after:
        raise Refused("a function that isn't exported would change otherwise")
    named = [line for line in out.split("\n") if "x86" in line and not line.startswith(";")]
    if named:
        raise Refused(f"x86-64 is still named: {named[0]}")
    return out


def main():
    if len(sys.argv) != 3:
        sys.exit("usage: retarget.py HEADS MODULE")
    with open(sys.argv[1], encoding="utf-8") as heads, open(sys.argv[2], encoding="utf-8") as module:
        try:
            sys.stdout.write(retargeted(module.read(), heads_of(heads.read())))
        except Refused as why:
            sys.exit(f"retarget: {why}")


if __name__ == "__main__":
    main()
