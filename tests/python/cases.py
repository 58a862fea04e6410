"""What tests written in Python share: counted cases."""

from __future__ import annotations

import os
import subprocess
import sys

passed = failed = 0


def case(name: str, holds: bool) -> None:
    """Counts a case, and names one that fails."""
    global passed, failed
    if holds:
        passed += 1
    else:
        failed += 1
        print(f"FAILED {name}")


def refuses(name: str, kind: type[BaseException], text: str, call, *words, **named) -> BaseException | None:
    """That a call raises an error of this kind, whose text holds this. Answers the error."""
    try:
        call(*words, **named)
    except kind as error:
        case(f"{name}: {error}", text in str(error))
        return error
    except Exception as error:
        case(f"{name}: {type(error).__name__}: {error}", False)
    else:
        case(f"{name}: no error", False)
    return None


def screen() -> tuple[subprocess.Popen, dict[str, str]]:
    """A screen in memory, by Xvfb, and the environment of programs that are shown on it."""
    reading, writing = os.pipe()
    command = ["Xvfb", "-displayfd", str(writing), "-screen", "0", "1280x960x24"]
    server = subprocess.Popen(command, stderr=subprocess.DEVNULL, pass_fds=[writing])
    os.close(writing)
    # It writes its number, and LF, once programs may come.
    with open(reading, "rb") as told:
        number = told.readline().decode().strip()
    return server, {**os.environ, "DISPLAY": f":{number}"}


def end() -> None:
    """Says how many cases passed, and ends."""
    print(f"{passed} passed, {failed} failed")
    sys.exit(failed != 0)
