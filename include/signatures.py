#!/usr/bin/env python3
"""signatures.py [--header FILE] [--wrapper FILE]: holds the C header and the Rust wrapper's declarations to the proved source.

Every exported function of crates/chaffrail must be declared in both with the same parameters in the same order, by name and type, and each struct that
crosses must have the same fields in the same order. The interface version in the header must be that of include/interface, whose digest is of all these:
where a signature or a struct changed, the version goes up and the digest is written anew (--digest prints it).
"""
import argparse
import hashlib
import pathlib
import re
import sys

ROOT = pathlib.Path(__file__).resolve().parent.parent

# A type of the source as the parameters or fields that it crosses as: suffix of the name, C, Rust.
CROSSES = {
    "u8": [("", "uint8_t", "u8")],
    "u16": [("", "uint16_t", "u16")],
    "u32": [("", "uint32_t", "u32")],
    "i32": [("", "int32_t", "i32")],
    "&[u8]": [("", "const uint8_t *", "*const u8"), ("_len", "size_t", "usize")],
    "&mut [u8]": [("", "uint8_t *", "*mut u8"), ("_len", "size_t", "usize")],
}
ANSWER, TIMING = ("chaffrail_answer", "Answer"), ("chaffrail_timing", "Timing")


def without_comments(text):
    return re.sub(r"/\*.*?\*/|//[^\n]*", " ", text, flags=re.DOTALL)


def pairs(text, name_first):
    """`name: type, ..` or `type name, ..`, as pairs of name and type."""
    out = []
    for one in filter(None, (part.strip() for part in re.split(r"[,;]", text))):
        if name_first:
            name, kind = (part.strip() for part in one.removeprefix("pub ").split(":", 1))
        else:
            kind, name = re.fullmatch(r"(.*?)(\w+)", one, flags=re.DOTALL).groups()
        out.append((name, " ".join(kind.split())))
    return out


class Source:
    """The exported functions and the structs that cross, as Rattle has them."""

    def __init__(self):
        text = without_comments((ROOT / "crates/chaffrail/src/lib.rt").read_text(encoding="utf-8"))
        found = re.findall(r'#\[unsafe\(no_mangle\)\]\s*pub extern "C" fn (\w+)\(([^)]*)\)\s*->\s*(\w+)', text)
        self.functions = {name: (pairs(parameters, True), answer) for name, parameters, answer in found}
        crossing = {answer for _, answer in self.functions.values()}
        self.structs = {}
        for file in sorted(ROOT.glob("crates/*/src/*.rt")):
            for name, fields in re.findall(r"#\[repr\(C\)\]\s*(?:#\[[^\]]*\]\s*)*pub struct (\w+) \{([^}]*)\}", without_comments(file.read_text(encoding="utf-8"))):
                if name in crossing:
                    self.structs[name] = pairs(fields, True)
        if crossing != set(self.structs) or len(crossing) != 2:
            sys.exit(f"signatures: structs that cross: {sorted(crossing)}, found: {sorted(self.structs)}")

    def crossed(self, kind, language):
        """A type as the parameters it becomes: suffix and type, 0 for C and 1 for Rust."""
        if kind in self.structs:
            return [("", (ANSWER if kind == "Answer" else TIMING)[language])]
        if kind not in CROSSES:
            sys.exit(f"signatures: no way to cross for {kind}")
        return [(suffix, names[language]) for suffix, *names in CROSSES[kind]]

    def declared(self, language):
        """Functions and structs as they must be declared."""
        def spread(fields):
            return [(name + suffix, kind) for name, source in fields for suffix, kind in self.crossed(source, language)]
        functions = {name: (spread(parameters), self.crossed(answer, language)[0][1]) for name, (parameters, answer) in self.functions.items()}
        structs = {self.crossed(name, language)[0][1]: spread(fields) for name, fields in self.structs.items()}
        return functions, structs


def of_header(text):
    text = without_comments(text)
    functions = {name: ([] if parameters.strip() == "void" else pairs(parameters, False), answer)
                 for answer, name, parameters in re.findall(r"^(\w+) (chaffrail_\w+)\(([^)]*)\);", text, flags=re.MULTILINE)}
    structs = {name: pairs(fields, False) for fields, name in re.findall(r"typedef struct \w+ \{([^}]*)\} (\w+);", text)}
    return functions, structs


def of_wrapper(text):
    text = without_comments(text)
    functions = {name: (pairs(parameters, True), answer) for name, parameters, answer in re.findall(r"pub fn (\w+)\(([^)]*)\) -> (\w+);", text)}
    structs = {name: pairs(fields, True) for name, fields in re.findall(r"#\[repr\(C\)\][^{]*pub struct (\w+) \{([^}]*)\}", text)}
    return functions, structs


def differences(where, found, wanted):
    for kind, has, wants in zip(("function", "struct"), found, wanted):
        for name in sorted(set(has) | set(wants)):
            if has.get(name) != wants.get(name):
                yield f"{where}: {kind} {name} is {has.get(name, 'missing')}, and the source has {wants.get(name, 'none')}"


def main():
    parser = argparse.ArgumentParser(description="holds the header and the wrapper to the proved source")
    parser.add_argument("--header", type=pathlib.Path, default=ROOT / "include/chaffrail.h")
    parser.add_argument("--wrapper", type=pathlib.Path, default=ROOT / "rust/chaffrail/src/raw.rs")
    parser.add_argument("--digest", action="store_true")
    words = parser.parse_args()
    source, header = Source(), words.header.read_text(encoding="utf-8")
    digest = hashlib.sha256(repr([sorted(part.items()) for part in source.declared(0)]).encode()).hexdigest()[:16]
    if words.digest:
        print(digest)
        return
    wrong = [*differences("header", of_header(header), source.declared(0)),
             *differences("wrapper", of_wrapper(words.wrapper.read_text(encoding="utf-8")), source.declared(1))]
    version = re.search(r"^#define CHAFFRAIL_INTERFACE (\d+)$", header, flags=re.MULTILINE)
    recorded = (ROOT / "include/interface").read_text(encoding="utf-8").split()
    if not version or [version[1], digest] != recorded:
        wrong.append(f"interface: the header says {version and version[1]}, include/interface {' '.join(recorded)}, and the source's digest is {digest}")
    if wrong:
        sys.exit("\n".join(wrong))
    print(f"header and wrapper: {len(source.functions)} functions and {len(source.structs)} structs as in the source, interface {version[1]}")


if __name__ == "__main__":
    main()
