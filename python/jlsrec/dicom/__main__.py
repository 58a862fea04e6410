"""python3 -m jlsrec.dicom to-film | to-dicom | compress | restore | verify: the command jlsrec-dicom."""

from __future__ import annotations

import argparse
import contextlib
import errno
import importlib.util
import io
import os
import sys
from typing import Union

from .. import __version__
from .._files import write_all
from . import Refused


INTERRUPTED = 130
# The commands over whole trees.
TREES = ("compress", "restore", "verify")


def main(program: str = "jlsrec-dicom") -> int:
    """Runs one of the commands, for what is called so.

    The status is 0, or 1 if a film or a file can't be made or isn't right, with a line that says why.
    """
    hold_standard_streams()
    words = _parser(program).parse_args()
    try:
        if importlib.util.find_spec("pydicom") is None:
            raise Refused("it wants pydicom; apt-get install python3-pydicom has it")
        return _run(words)
    except (ImportError, Refused) as why:
        print(f"{words.command}: {why}", file=sys.stderr)
        return 1
    except OSError as error:
        name = f"{os.fsdecode(error.filename)}: " if error.filename else ""
        print(f"{words.command}: {name}{error.strerror or error}", file=sys.stderr)
        return 1
    except MemoryError:
        print(f"{words.command}: there isn't memory enough", file=sys.stderr)
        return 1
    except KeyboardInterrupt:
        if words.command in TREES:
            print(f"{words.command}: interrupted; the same command goes on from here", file=sys.stderr)
        return INTERRUPTED


def _run(words: argparse.Namespace) -> int:
    if words.command == "to-film":
        from .film import write_film

        write_film(words.files, words.offset)
        return 0
    if words.command == "to-dicom":
        from .files import write_files

        write_files(words.recording, words.out, words.files, words.extended)
        return 0
    from . import tree
    from .progress import check_report

    check_report(words.report)
    tree.check_second(getattr(words, "second", None))
    root = None if words.tree is None else os.path.abspath(os.fsencode(words.tree))
    out = os.path.abspath(os.fsencode(words.out))
    second = getattr(words, "second", None)
    reread = getattr(words, "reread", False)
    parts = [os.path.normpath(os.fsencode(part)) if part else b"" for part in getattr(words, "parts", [])]
    strict = getattr(words, "strict", False)
    given = tree.Words(words.command, out, root, words.jobs, words.dask, second, words.report, reread, strict, parts)
    return {"compress": tree.compress, "restore": tree.restore, "verify": tree.verify}[words.command](given)


def _parser(program: str) -> argparse.ArgumentParser:
    parser = argparse.ArgumentParser(
        prog=program,
        description="DICOM files as films of their stored values, and recordings back in DICOM files; trees of DICOM "
        "files compressed to JPEG-LS, restored and verified.",
    )
    parser.add_argument("--version", action="version", version=f"jlsrec-dicom {__version__}")
    commands = parser.add_subparsers(dest="command", required=True)
    film = commands.add_parser(
        "to-film",
        help="DICOM files to a film of their stored values, on standard output",
        description="Writes a film of the files' stored values to standard output, in the order of their names here.",
    )
    film.add_argument("--offset", action="store_true", help="add 2^(bits stored - 1) to signed values")
    film.add_argument("files", nargs="+", metavar="FILE", help="a DICOM file")
    back = commands.add_parser(
        "to-dicom",
        help="a recording's codestreams into the DICOM files of its film",
        description="Writes DICOM files whose pixel data are a recording's codestreams, once each has been compared.",
    )
    back.add_argument("--extended", action="store_true", help="write an extended offset table, for over 4 GB")
    back.add_argument("recording", metavar="RECORDING", help="the recording of the film of these files")
    back.add_argument("out", metavar="OUT", help="a file where one FILE is named, else a folder")
    back.add_argument("files", nargs="+", metavar="FILE", help="a DICOM file, in the order of the film")
    _add_trees(commands)
    return parser


def _add_trees(commands: argparse._SubParsersAction) -> None:
    """The commands over whole trees."""
    compress = commands.add_parser(
        "compress",
        help="a tree of DICOM files to JPEG-LS, each compared with its source",
        description="Codes each DICOM file of TREE into a file of OUT, in JPEG-LS lossless, restores the source from "
        "it, and compares that with TREE's, byte for byte. A file that can't be coded is copied. TREE is only read. "
        "The same command continues a run that was interrupted, and takes up what is new in TREE: a file that has the "
        "size, the times and the inode that it had isn't read again.",
    )
    compress.add_argument("tree", metavar="TREE", help="a folder, which is only read")
    compress.add_argument("out", metavar="OUT", help="an empty folder, or that of an earlier run")
    compress.add_argument(
        "--second", choices=["gdcm", "dcmtk"], help="have this decoder read the values too, and compare"
    )
    compress.add_argument(
        "--reread", action="store_true", help="read and compare all files again, also those that haven't changed"
    )
    restore = commands.add_parser(
        "restore",
        help="a compressed tree back, byte for byte",
        description="Restores the source of each file of OUT, byte for byte. No file is replaced. The same command "
        "continues a run that was interrupted.",
    )
    restore.add_argument("out", metavar="OUT", help="a folder that a tree was compressed into")
    restore.add_argument("tree", metavar="TREE", help="the folder that gets the files")
    restore.add_argument(
        "parts",
        metavar="PART",
        nargs="*",
        default=[],
        help="a file or a folder of OUT, by its name below OUT; by default all",
    )
    verify = commands.add_parser(
        "verify",
        help="a compressed tree compared with its manifest",
        description="Compares each file of OUT, its values and its source with the sums in the manifest, and with "
        "TREE's file if TREE is named. The same command continues a run that was interrupted.",
    )
    verify.add_argument("out", metavar="OUT", help="a folder that a tree was compressed into")
    verify.add_argument("tree", metavar="TREE", nargs="?", help="the tree that was compressed")
    for command, files in ((compress, "TREE's JPEG-LS lossless files, and those that are made,"), (verify, "JPEG-LS files")):
        command.add_argument(
            "--strict",
            action="store_true",
            help=f"have {files} be strict: the data of each scan exactly those that encoding gives",
        )
    for command in (compress, restore, verify):
        workers = command.add_mutually_exclusive_group()
        workers.add_argument(
            "--jobs",
            type=_count,
            default=len(os.sched_getaffinity(0)),
            metavar="N",
            help="the number of processes, 1 to 1024; by default the number of processors",
        )
        workers.add_argument("--dask", metavar="ADDRESS", help="have the workers of this dask scheduler do the work")
        command.add_argument("--report", metavar="FILE", help="write counts, sizes, speed and failures as JSON")


def _count(word: str) -> int:
    """A number of processes."""
    if not (word.isascii() and word.isdigit() and len(word) < 9 and 1 <= int(word) <= 1024):
        raise argparse.ArgumentTypeError(f"{word!r} isn't a number from 1 to 1024")
    return int(word)


def hold_standard_streams() -> None:
    """Has no file that is opened later take the place of a standard stream that is closed.

    A read or a write there fails as it would have. What can't be written to standard error is dropped, as where it is
    closed, nobody reads it any more, or its disk is full: work goes on without messages.
    """
    for number, mode in ((0, os.O_WRONLY), (1, os.O_RDONLY), (2, os.O_RDONLY)):
        try:
            os.fstat(number)
        except OSError as error:
            if error.errno == errno.EBADF:
                os.open(os.devnull, mode)
    encoding = "utf-8" if sys.stderr is None else sys.stderr.encoding
    raw = io.BufferedWriter(_StandardError())
    sys.stderr = io.TextIOWrapper(raw, encoding, "backslashreplace", line_buffering=True)


class _StandardError(io.RawIOBase):
    """Standard error, to which no write fails."""

    def writable(self) -> bool:
        return True

    def fileno(self) -> int:
        return 2

    def isatty(self) -> bool:
        return os.isatty(2)

    def write(self, data: Union[bytes, memoryview]) -> int:
        with contextlib.suppress(OSError):
            write_all(2, data)
        return len(data)


if __name__ == "__main__":
    sys.exit(main("python3 -m jlsrec.dicom"))
