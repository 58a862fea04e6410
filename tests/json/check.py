"""Runs the program with --json and without: check.py PROGRAM, in a folder of its own. Prints each case that fails, and how many
passed."""

import json
import os
import re
import subprocess
import sys

sys.dont_write_bytecode = True
sys.path.insert(0, os.path.join(os.path.dirname(os.path.abspath(__file__)), "..", "program"))
from cases import Cases, write
from codestreams import ANNEX_H, BLACK, COLOUR, MIXED, WHITE, film, recording

program, = sys.argv[1:]
cases = Cases(program)
run, count = cases.run, cases.count

LIST = ["frame", "kind", "width", "height", "maxval", "P", "T1", "T2", "T3", "RESET", "LIMIT"]
INDEX = ["frame", "offset", "bytes", "kind", "width", "height", "maxval", "P", "T1", "T2", "T3", "RESET", "sha256"]
WORDS = {"kind", "sha256"}


def objects(output):
    """The objects of an output, if each is a line of its own whose members have different names; else none."""
    try:
        lines = output.decode().split("\n")
        pairs = [json.loads(line, object_pairs_hook=list) for line in lines[:-1]]
        made = [dict(members) for members in pairs]
        if lines[-1] or any(len(members) != len(one) for members, one in zip(pairs, made)):
            return None
        return made
    except (ValueError, TypeError):
        return None


def columns(names, output):
    """The objects that lines of columns of these names are to give."""
    return [
        {name: value if name in WORDS else int(value) for name, value in zip(names, line.split(" "))}
        for line in output.decode().splitlines()
    ]


def findings(name, output, sizes):
    """The objects that the lines of the check of a recording are to give. The sizes are those of the codestreams by its index."""
    made, more = [], False
    for line in output.decode().splitlines():
        if match := re.fullmatch(r"frame (\d+): (.*): (\d+) bytes at (\d+)( passed over)?", line):
            frame, count, place = (int(match[part]) for part in (1, 3, 4))
            made.append({"file": name, "frame": frame, "fault": match[2], "bytes": count, "offset": place})
        elif match := re.fullmatch(r"frame (\d+): at (\d+), not (\d+)", line):
            frame, found, place = (int(part) for part in match.groups())
            made.append({"file": name, "frame": frame, "fault": "moved", "bytes": sizes[frame], "offset": place, "found": found})
        elif line.endswith(": more bytes than the index has"):
            more = True
        elif match := re.fullmatch(r".*: (\d+) frames, (\d+) damaged(?:, (\d+) moved)?", line):
            frames, damaged, moved = (int(part or 0) for part in match.groups())
            made.append({"file": name, "frames": frames, "damaged": damaged, "moved": moved, "more_bytes": more})
        else:
            made.append(f"what is {line}?")
    return made


def same(wanted, *words):
    """A case: the same words with --json and without. Its objects are those that `wanted` gives of the output without."""
    status, output, said = run(*words)
    got = run(words[0], "--json", *words[1:])
    made = objects(got[1])
    holds = (got[0], got[2]) == (status, said) and made == wanted(output)
    count(f"{words[0]} --json {' '.join(words[1:])}", holds, f"{got} and not {(status, wanted(output), said)}")
    return made or []


def lists(name):
    return same(lambda output: columns(LIST, output), "list", name)


def indexes(*words):
    return same(lambda output: columns(INDEX, output), "index", *words)


def checks(name, *options, sizes=()):
    return same(lambda output: findings(name, output, sizes), "check", *options, name)


# ---- films and recordings

write("mixed.pgm", film(MIXED))
write("none.pgm", b"")
write("long.pgm", film([ANNEX_H, BLACK] * 500))
write("bad.pgm", film([BLACK]) + b"P5\n0 1\n255\n")
write("cut.pgm", film(MIXED)[:-1])
for name, frames in [("mixed.pgm", 5), ("none.pgm", 0), ("long.pgm", 1000), ("bad.pgm", 1), ("cut.pgm", 4), ("absent.pgm", 0), (".", 0)]:
    count(f"{name}: its objects", len(lists(name)) == frames, frames)

write("mixed.jls", recording(MIXED))
write("none.jls", b"")
write("long.jls", recording([ANNEX_H, BLACK] * 500))
write("cut.jls", recording(MIXED)[:-1])
write("no.jls", film([BLACK]))
for name, frames in [("mixed.jls", 5), ("none.jls", 0), ("long.jls", 1000), ("cut.jls", 4), ("no.jls", 0), ("absent.jls", 0)]:
    count(f"{name}: its objects", len(indexes(name)) == frames, frames)
    count(f"{name}: its objects without sums", len(indexes("--no-sums", name)) == frames, frames)

# ---- checks

sizes = [len(frame[0]) for frame in MIXED]
changed = bytearray(recording(MIXED))
changed[30] ^= 1
write("changed.jls", bytes(changed))
write("broken.jls", b"xyz" + recording(MIXED)[:-5])
write("more.jls", recording(MIXED) + b"more")
write("moved.jls", recording(MIXED[:2]) + b"abc" + recording(MIXED[2:]))
write("swapped.jls", recording([MIXED[1], MIXED[0]] + MIXED[2:]) + b"more")
write("mixed.index", run("index", "mixed.jls")[1])
write("mixed.sizes", run("index", "--no-sums", "mixed.jls")[1])
write("bad.index", run("index", "mixed.jls")[1][:-1])
write("none.index", b"")
names = ["mixed.jls", "none.jls", "changed.jls", "broken.jls", "more.jls", "moved.jls", "swapped.jls", "cut.jls", "no.jls", "absent.jls", "."]
for name in names:
    checks(name)
    for index in ["mixed.index", "mixed.sizes", "bad.index", "none.index", "absent.index"]:
        for workers in ["1", "3"]:
            checks(name, "--workers", workers, "--index", index, sizes=sizes)
# A part by an index.
for name in names:
    for part in ["0..", "1..2", "4", "..1", "5..", "5"]:
        checks(name, "--frames", part, "--index", "mixed.index", sizes=sizes)
for part in ["0..", "3..4", "9"]:
    checks("changed.jls", "--workers", "3", "--frames", part, "--index", "mixed.sizes", sizes=sizes)
    checks("broken.jls", "--frames", part, "--index", "bad.index", sizes=sizes)
made = checks("swapped.jls", "--index", "mixed.index", sizes=sizes)
count("each kind of object", [set(one) for one in made] == [
    {"file", "frame", "fault", "bytes", "offset", "found"}, {"file", "frame", "fault", "bytes", "offset", "found"},
    {"file", "frames", "damaged", "moved", "more_bytes"},
], made)
count("what they say", [one.get("fault") for one in made] == ["moved", "moved", None] and made[2]["moved"] == 2 and made[2]["more_bytes"], made)

# Codestreams that aren't strict: standard error says it as ever.
black, colour = BLACK[0], COLOUR[0]
padded = (black[:25] + bytes([black[25] | 1]) + black[26:], BLACK[1], BLACK[2])
write("loose.jls", recording([WHITE, padded, COLOUR]))
write("loose.index", run("index", "loose.jls")[1])
for name in ["loose.jls", "mixed.jls", "changed.jls", "none.jls", "absent.jls"]:
    checks(name, "--strict")
    checks(name, "--strict", "--index", "loose.index", sizes=[len(WHITE[0]), len(padded[0]), len(COLOUR[0])])

# ---- names

for name in ['"', "\\", "a\nb", "\t", "\x01\x1b[2J\x7f", "caf\u00e9", "\u2028\u202e", "\U0001f3a5", " ", "x, \"frame\": 1", "{}", "'$(x)'"]:
    for content in [recording(MIXED), bytes(changed), recording(MIXED)[:-1], b""]:
        write(name, content)
        checks(name)
        checks(name, "--index", "mixed.index", sizes=sizes)
    checks(name, "--frames", "0..", "--index", "mixed.index", sizes=sizes)
    write(name, bytes(changed))
    checks(name, "--frames", "..0", "--index", "mixed.index", sizes=sizes)
    lists(name)
    indexes(name)
# One that isn't UTF-8 is refused as ever.
write(b"\xff", recording(MIXED))
for command in ["list", "index", "check"]:
    plain = subprocess.run([program, command, b"\xff"], capture_output=True)
    made = subprocess.run([program, command, "--json", b"\xff"], capture_output=True)
    holds = (plain.returncode, plain.stdout, made.returncode, made.stdout) == (2, b"", 2, b"") and b"isn't UTF-8" in made.stderr
    count(f"{command} of a name that isn't UTF-8", holds, (plain, made))

# ---- several files

for name in ["mixed.jls", "changed.jls", "more.jls", "moved.jls"]:
    write(f"{name}.index", run("index", "mixed.jls")[1])
for options in [[], ["--strict"], ["--beside"], ["--beside", "--workers", "2", "--strict"]]:
    for several in [names, names[:2], ["mixed.jls"], ["changed.jls", "caf\u00e9", "mixed.jls"]]:
        alone = [run("check", *options, "--json", name) for name in several]
        wanted = (max(one[0] for one in alone), b"".join(one[1] for one in alone), "".join(one[2] for one in alone))
        got = run("check", "--json", *options, *several)
        count(f"check --json {options} of {several}", got == wanted and objects(got[1]) is not None, f"{got} and not {wanted}")
        plain = run("check", *options, *several)
        count(f"check {options} of {several}", (plain[0], plain[2]) == (got[0], got[2]), f"{plain} and not {got}")

status, output, said = run("index", "--json", "--beside", "mixed.jls", "cut.jls")
holds = (status, output) == (2, b"") and "--json and --beside don't go together" in said and not os.path.exists("cut.jls.index")
count("index --json --beside", holds, (status, output, said))
status, output, said = run("index", "--json", "mixed.jls", "cut.jls")
count("index --json of several", (status, output) == (2, b"") and "several FILEs go only with --beside" in said, (status, output, said))

# ---- writes that fail

# A device that is full, and a file that may have so many bytes: as many objects are written as it has room for.
for words in [["list", "long.pgm"], ["list", "mixed.pgm"], ["list", "none.pgm"], ["index", "long.jls"], ["index", "mixed.jls"],
              ["check", "mixed.jls"], ["check", "changed.jls"], ["check", "mixed.jls", "changed.jls"], ["check", "--index", "mixed.index", "changed.jls"],
              ["check", "--frames", "..3", "--index", "mixed.index", "changed.jls"]]:
    ends = []
    for option in [[], ["--json"]]:
        with open("/dev/full", "wb") as full:
            ended = subprocess.run([program, words[0], *option, *words[1:]], stdout=full, stderr=subprocess.PIPE)
            ends.append((ended.returncode, re.sub(rb"after \d+ bytes", b"after N bytes", ended.stderr)))
    count(f"{words} to a full device", ends[0] == ends[1] and (words[1] == "none.pgm" or ends[1][0] == 1), ends)
    whole = run(words[0], "--json", *words[1:])[1]
    for room in [1, 8]:
        limited = ["bash", "-c", f"trap '' XFSZ; ulimit -f {room}; \"$@\" >limited", "bash", program, words[0], "--json", *words[1:]]
        ended = subprocess.run(limited, stderr=subprocess.PIPE)
        with open("limited", "rb") as file:
            got = file.read()
        fits = len(whole) <= 1024 * room
        holds = got == whole[:1024 * room] and (fits or (ended.returncode == 1 and b"output failed" in ended.stderr))
        count(f"{words} with {room} KiB", holds, (ended, len(got)))

cases.end()
