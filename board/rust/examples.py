#!/usr/bin/env python3
"""examples.py SOURCE >FIRMWARE: the examples in a Rust file's documentation as one program for a bare board.

Each block between ``` becomes a function, as rustdoc makes one of it: a leading '# ' hides a line from the reader and not from the compiler, and a block
that ends in `Ok::<..>(())` may use `?`.
"""
import re
import sys

PROGRAM = """//! The examples of the wrappers, run one after the other; the machine is board/machine.
#![no_std]
use core::fmt::Write;

extern "C" {{
    fn machine_write(bytes: *const u8, len: usize);
    fn fault() -> !;
}}

struct Machine;

impl Write for Machine {{
    fn write_str(&mut self, s: &str) -> core::fmt::Result {{
        unsafe {{ machine_write(s.as_ptr(), s.len()) }};
        Ok(())
    }}
}}

#[panic_handler]
fn panic(why: &core::panic::PanicInfo) -> ! {{
    let _ = writeln!(Machine, "{{why}}");
    unsafe {{ fault() }}
}}

{examples}

#[no_mangle]
pub extern "C" fn main() -> i32 {{
    {calls}
    let _ = writeln!(Machine, "wrappers: {count} examples run");
    0
}}
"""


def blocks(text):
    """The lines of each block of documented code."""
    block = None
    for line in text.split("\n"):
        documented = re.match(r"^\s*//[/!] ?(.*)$", line)
        if not documented:
            block = None
        elif documented[1].startswith("```"):
            if block is None:
                block = []
            else:
                yield block
                block = None
        elif block is not None:
            block.append(re.sub(r"^# ", "", documented[1]))


def function(number, lines):
    body = "\n".join("    " + line for line in lines)
    if re.match(r"^Ok::<.*\(\(\)\)$", lines[-1]):
        body = f"    (|| {{\n{body}\n    }})().unwrap();"
    return f"fn example_{number}() {{\n{body}\n}}"


def main():
    if len(sys.argv) != 2:
        sys.exit("usage: examples.py SOURCE")
    with open(sys.argv[1], encoding="utf-8") as source:
        found = list(blocks(source.read()))
    if not found:
        sys.exit("examples: there are none")
    print(PROGRAM.format(
        examples="\n\n".join(function(i, lines) for i, lines in enumerate(found)),
        calls="\n    ".join(f"example_{i}();" for i in range(len(found))),
        count=len(found)), end="")


if __name__ == "__main__":
    main()
