"""Reads the code blocks of the documents: fenced ones, and indented ones after a blank line.

A block is a session, whose first line has a prompt, or an excerpt of a file. A session is a list of steps: what is typed, and the
lines that the page shows below it.

    $ COMMAND                        in the shell; a line that ends with a backslash goes on
    1> EXPRESSION                    in the Erlang shell that the last `$ erl` started
    (a@127.0.0.1)1> EXPRESSION       in the Erlang shell of that node
"""

import re
from dataclasses import dataclass, field

PROMPT = re.compile(r"(?:(?P<shell>\$)|(?:\((?P<node>[^()\s]+@[^()\s]+)\))?(?P<number>\d+)>) (?P<typed>.*)")


@dataclass
class Step:
    """What is typed at a prompt: that of the shell if `number` is 0, else of an Erlang shell, whose node may have no name."""

    typed: str
    number: int = 0
    node: str = ""
    shown: list[str] = field(default_factory=list)


@dataclass(frozen=True)
class Block:
    """A code block: its page, the number of its first line there, the word behind the fence, and its lines."""

    page: str
    at: int
    language: str
    lines: tuple[str, ...]

    @property
    def place(self):
        return f"{self.page}:{self.at}"

    @property
    def is_session(self):
        return PROMPT.fullmatch(self.lines[0]) is not None

    def steps(self):
        """Returns the steps of a session."""
        steps, lines = [], list(self.lines)
        while lines:
            line = lines.pop(0)
            found = PROMPT.fullmatch(line)
            if found is None:
                steps[-1].shown.append(line)
                continue
            typed = found["typed"]
            while found["shell"] and typed.endswith("\\") and lines:
                typed += "\n" + lines.pop(0)
            steps.append(Step(typed, int(found["number"] or 0), found["node"] or ""))
        return steps


def blocks_of(page, text):
    """Returns the code blocks of a page, in order, each with the line of the page above it."""
    lines, found, at = text.split("\n"), [], 0
    while at < len(lines):
        if lines[at].startswith("```"):
            start, end = at + 1, lines.index("```", at + 1)
            found.append(Block(page, start + 1, lines[at][3:], tuple(lines[start:end])))
            at = end + 1
        elif lines[at].startswith("    ") and (at == 0 or not lines[at - 1].strip()):
            start = at
            while at < len(lines) and lines[at].startswith("    "):
                at += 1
            found.append(Block(page, start + 1, "", tuple(line[4:] for line in lines[start:at])))
        else:
            at += 1
    return found
