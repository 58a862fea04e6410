"""Cases that a program passes or fails, as they are counted and told."""

import os
import subprocess
import sys


def write(name, content):
    with open(name, "wb") as file:
        file.write(content)
    return name


class Cases:
    """The cases of a program."""

    def __init__(self, program):
        self.program = program
        self.passed = self.failed = 0

    def run(self, *words, **environment):
        """The status, standard output and standard error of the program."""
        ended = subprocess.run(
            [self.program, *words], stdin=subprocess.DEVNULL, capture_output=True, env={**os.environ, **environment}, timeout=60
        )
        return ended.returncode, ended.stdout, ended.stderr.decode()

    def count(self, name, holds, *shown):
        if holds:
            self.passed += 1
        else:
            self.failed += 1
            print(f"FAILED {name}: {' '.join(map(str, shown))}"[:2000])

    def says(self, status, output, said, *words, **environment):
        """A case: the words, and what comes of them."""
        wanted = (status, output if isinstance(output, bytes) else output.encode(), said)
        got = self.run(*words, **environment)
        self.count(" ".join(words), got == wanted, f"{got} and not {wanted}")

    def holds(self, name, content):
        """A case: the content of a file."""
        with open(name, "rb") as file:
            got = file.read()
        self.count(name, got == content, f"{got} and not {content}")

    def end(self):
        """Prints how many there were, and ends."""
        print(f"{self.passed} passed, {self.failed} failed")
        sys.exit(self.failed > 0)
