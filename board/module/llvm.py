"""LLVM's text of a module, taken apart into its functions and the lines between them."""
import re

DEFINE = re.compile(r'^define (?P<internal>internal )?.*@(?P<name>"[^"]+"|[\w.]+)\(')


class Refused(Exception):
    """The module has what these programs don't know."""


class Function:
    """A function: its lines from `define` to the closing brace."""

    def __init__(self, lines):
        self.lines = lines
        found = DEFINE.match(lines[0])
        if not found:
            raise Refused(f"a definition of unknown form: {lines[0]}")
        self.name = found["name"].strip('"')
        self.internal = found["internal"] is not None


class Module:
    """Lines, and among them functions."""

    def __init__(self, text):
        self.parts = []
        body = None
        for line in text.split("\n"):
            if body is None and line.startswith("define "):
                body = [line]
            elif body is None:
                self.parts.append(line)
            else:
                body.append(line)
                if line == "}":
                    self.parts.append(Function(body))
                    body = None
        if body is not None:
            raise Refused(f"a function without an end: {body[0]}")

    def functions(self):
        return [part for part in self.parts if isinstance(part, Function)]

    def __str__(self):
        return "\n".join("\n".join(part.lines) if isinstance(part, Function) else part for part in self.parts)
