#!/usr/bin/env python3
"""wrong.py FAULT HEADS MODULE >ANOTHER: a board's module that is made wrongly. The check must tell every one; if it doesn't, it checks too little.

Faults: convention (x86-64's way of calling is kept), table (one number of a table is one more), fields (an answer's fields are exchanged).
HEADS and MODULE are what retarget.py takes.
"""
import re
import sys

from llvm import Function, Module, Refused
from retarget import heads_of, outside_functions, retargeted


def convention(text, heads):
    module = Module(text)
    module.parts = [part if isinstance(part, Function) else outside_functions(part, heads) for part in module.parts]
    return str(module)


def changed_once(pattern, change, text):
    """The text with the pattern's first place changed; it must have one."""
    out, count = re.subn(pattern, change, text, count=1, flags=re.MULTILINE)
    if not count:
        raise Refused("nothing to make wrong")
    return out


def table(text, heads):
    def one_more(found):
        numbers = re.findall(r"\\([0-9A-F]{2})", found[2])
        middle = len(numbers) // 2
        numbers[middle] = f"{(int(numbers[middle], 16) + 1) % 256:02X}"
        return found[1] + "".join("\\" + n for n in numbers) + found[3]
    return retargeted(changed_once(r'^(@(?:table|static)\.\d+ = .* c")([^"]*)(".*)$', one_more, text), heads)


def fields(text, heads):
    """Refusal and place where value and carry belong, in every function's answer."""
    out = retargeted(text, heads)
    store = r"^  store \{ i64, i64 \} (%r\d+), ptr %answer, align 4$"
    exchanged = (r"  %first = extractvalue { i64, i64 } \1, 0" "\n" r"  %second = extractvalue { i64, i64 } \1, 1" "\n"
                 "  store i64 %second, ptr %answer, align 4\n"
                 "  %behind = getelementptr i8, ptr %answer, i32 8\n"
                 "  store i64 %first, ptr %behind, align 4")
    out, count = re.subn(store, exchanged, out, flags=re.MULTILINE)
    if not count:
        raise Refused("nothing to make wrong")
    return out


def main():
    faults = {"convention": convention, "table": table, "fields": fields}
    if len(sys.argv) != 4 or sys.argv[1] not in faults:
        sys.exit("usage: wrong.py convention|table|fields HEADS MODULE")
    with open(sys.argv[2], encoding="utf-8") as heads, open(sys.argv[3], encoding="utf-8") as module:
        try:
            sys.stdout.write(faults[sys.argv[1]](module.read(), heads_of(heads.read())))
        except Refused as why:
            sys.exit(f"wrong: {why}")


if __name__ == "__main__":
    main()
