#!/usr/bin/env python3
"""stack.py USAGE DISASSEMBLY: the stack that each exported function needs, as lines of name and bytes.

USAGE is what clang's -fstack-usage wrote, DISASSEMBLY the object's by objdump -dr. A function's need is its frame and the deepest need among those it
calls; what the C library's functions need (memcpy and the like) isn't known here and is named behind the bytes. A frame that isn't fixed, a call
through a register or a function that calls itself, by whatever way, is refused.
"""
import re
import sys

FRAME = re.compile(r"^[^:\t]*:(?P<name>[^\t]+)\t(?P<bytes>\d+)\t(?P<kind>.*)$")
LABEL = re.compile(r"^[0-9a-f]+ <(.+)>:$")
CALL = re.compile(r"\bR_(?:ARM_THM_CALL|ARM_THM_JUMP24|RISCV_CALL|RISCV_CALL_PLT|RISCV_JAL)\s+(\S+)")
INDIRECT = re.compile(r"\tbl?x\tr|\tjalr\t(?!ra #)")
LIBRARY = re.compile(r"^(__aeabi_)?mem(cpy|move|set|clr)[48]?$")


def frames(text):
    """Bytes by function."""
    out = {}
    for line in text.splitlines():
        found = FRAME.match(line)
        if not found:
            sys.exit(f"stack: a line that isn't known: {line}")
        if found["kind"] != "static":
            sys.exit(f"stack: {found['name']} has a frame that isn't fixed")
        out[found["name"]] = int(found["bytes"])
    return out


def calls(text):
    """The functions that each function calls."""
    out, caller = {}, None
    for line in text.splitlines():
        label = LABEL.match(line)
        if label and not label[1].startswith("."):
            caller = label[1]
            out.setdefault(caller, set())
        called = CALL.search(line)
        if called and caller and not called[1].startswith(".L"):
            out[caller].add(re.sub(r"[+-]0x[0-9a-f]+$", "", called[1]))
    return out


def need(name, own, called, path=()):
    """Bytes, and what is called of the C library's."""
    if name in path:
        sys.exit(f"stack: {name} calls itself")
    if name not in own:
        if not LIBRARY.match(name):
            sys.exit(f"stack: {name} isn't known")
        return 0, {name}
    below = [need(other, own, called, (*path, name)) for other in sorted(called.get(name, ()))]
    return own[name] + max((b for b, _ in below), default=0), set().union(*(names for _, names in below))


def main():
    if len(sys.argv) != 3:
        sys.exit("usage: stack.py USAGE DISASSEMBLY")
    with open(sys.argv[1], encoding="utf-8") as usage, open(sys.argv[2], encoding="utf-8") as disassembly:
        own, text = frames(usage.read()), disassembly.read()
    if INDIRECT.search(text):
        sys.exit("stack: a call through a register")
    called = calls(text)
    for name in sorted(n for n in own if n.startswith("chaffrail_")):
        size, library = need(name, own, called)
        print(name, size, *sorted(library))


if __name__ == "__main__":
    main()
