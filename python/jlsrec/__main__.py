"""python3 -m jlsrec view FILE.., and python3 -m jlsrec sheet FILE -o SHEET."""

from __future__ import annotations

import argparse
import sys


def main() -> int:
    """Runs one of the two. The status is 0, or 1 where a recording can't be shown."""
    parser = argparse.ArgumentParser(prog="python3 -m jlsrec", description="Looks at recordings of jlsrec.")
    commands = parser.add_subparsers(dest="command", required=True)
    view = commands.add_parser("view", help="a window with up to sixteen recordings side by side")
    view.add_argument("files", nargs="+", metavar="FILE", help="a recording")
    view.add_argument("--rate", type=float, default=10, help="frames a second when it plays (default 10)")
    sheet = commands.add_parser("sheet", help="a PNG page of a recording's frames, with the bits that each takes")
    sheet.add_argument("file", metavar="FILE", help="a recording")
    sheet.add_argument("-o", "--output", required=True, metavar="SHEET", help="the PNG file that is written")
    sheet.add_argument("--replace", action="store_true", help="replace an existing SHEET; never FILE itself")
    words = parser.parse_args()
    try:
        if words.command == "sheet":
            from .sheet import make_sheet

            make_sheet(words.file, words.output, words.replace)
        else:
            if len(words.files) > 16:
                parser.error("at most sixteen recordings are shown")
            from .view import show

            show(words.files, words.rate)
    except OSError as error:
        print(f"jlsrec: {error.filename or words.command}: {error.strerror or error}", file=sys.stderr)
        return 1
    except (ImportError, ValueError) as error:
        print(f"jlsrec: {error}", file=sys.stderr)
        return 1
    return 0


if __name__ == "__main__":
    sys.exit(main())
