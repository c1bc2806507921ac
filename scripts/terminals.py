"""Terminals in which the sessions of the documents are typed: a shell, and Erlang shells."""

import os
import re
import select
import subprocess
import time

# How long a command may take, in seconds.
LONGEST = 180
# A person types more slowly than messages travel between nodes.
BETWEEN = 0.3


class Stuck(Exception):
    """A program prints no prompt: it has ended, or hangs."""


class Terminal:
    """A program that reads lines and prints, its errors too."""

    def __init__(self, words, folder, environment):
        self.process = subprocess.Popen(words, cwd=folder, env=environment, stdin=subprocess.PIPE, stdout=subprocess.PIPE,
                                        stderr=subprocess.STDOUT, bufsize=0)

    def type(self, text):
        self.process.stdin.write(text.encode())

    def read_to(self, prompt):
        """Returns what is printed before this regular expression, and what it matches, at the end of the output."""
        printed, end = "", time.monotonic() + LONGEST
        while not (found := re.search(f"(?:{prompt})\\Z", printed)):
            if not select.select([self.process.stdout], [], [], max(0, end - time.monotonic()))[0]:
                raise Stuck(f"it prints no prompt within {LONGEST} s, but: {printed}")
            part = os.read(self.process.stdout.fileno(), 65536)
            if not part:
                raise Stuck(f"it ends, and prints: {printed}")
            printed += part.decode(errors="replace")
        return printed[:found.start()], found

    def close(self):
        self.process.stdin.close()
        try:
            self.process.wait(10)
        except subprocess.TimeoutExpired:
            self.process.kill()
            self.process.wait()
        self.process.stdout.close()


class Shell(Terminal):
    """The shell sh."""

    # Printed after each command, with its status.
    MARK = "the end of the command:"

    def __init__(self, folder, environment):
        super().__init__(["/bin/sh"], folder, environment)

    def run(self, command):
        """Runs a command without input, and returns what it prints and its status."""
        self.type(f"{{ {command}\n}} < /dev/null; printf '{self.MARK} %d\\n' $?\n")
        printed, found = self.read_to(rf"{self.MARK} (\d+)\n")
        return printed, int(found[1])


class ErlangShell(Terminal):
    """An Erlang shell, started by a command of the shell."""

    def __init__(self, command, folder, environment):
        super().__init__(["/bin/sh", "-c", f"exec {command}"], folder, environment)
        self.number = self._read_prompt()[1]

    def _read_prompt(self):
        printed, found = self.read_to(r"^(?:\([^()\s]+@[^()\s]+\))?(\d+)> |(?<=\n)(?:\([^()\s]+@[^()\s]+\))?(\d+)> ")
        return printed, int(found[1] or found[2])

    def run(self, expression):
        """Evaluates an expression, and returns what is printed meanwhile."""
        time.sleep(BETWEEN)
        self.type(f"{expression}\n")
        printed, self.number = self._read_prompt()
        return printed
