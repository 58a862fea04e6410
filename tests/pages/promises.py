"""That what docs/PROMISES.md names after "By" is there: each function in the sources, and each clause among its clauses;
and that the definitions that docs/GUARANTEES.md lists for an auditor are there, with about as many lines as it says.

    python3 promises.py ROOT

A name in capitals is a type, a trait or a definition. After a type its functions' clauses may be named, and after a
definition its fields. The last line says how many cases passed.
"""

from __future__ import annotations

import re
import sys
from pathlib import Path

root = Path(sys.argv[1])
passed = failed = 0

# The clauses of all functions of a name, with the definitions that they cite, and the clauses of all functions of the
# files that have a type's implementations.
clauses: dict[str, set[str]] = {}
cited: dict[str, set[str]] = {}
of_types: dict[str, set[str]] = {}
for path in root.glob("crates/*/src/**/*.rt"):
    text = path.read_text()
    every = set()
    for head in re.finditer(r"\bfn (\w+).*?(?=\n\s*\{\}?\n|\n\s*(?:pub )?fn |\Z)", text, re.DOTALL):
        found = set(re.findall(r"\bensures (\w+)", head[0]))
        clauses.setdefault(head[1], set()).update(found)
        cited.setdefault(head[1], set()).update(re.findall(r"\b[A-Z]\w+", head[0]))
        every |= found
    for name in re.findall(r"\b(?:struct|enum|trait|impl[^{\n]*?) ?\b([A-Z]\w+)", text):
        of_types.setdefault(name, set()).update(every)

# The fields of definitions, and the names of all.
fields: dict[str, set[str]] = {}
for path in root.glob("crates/*/specs/**/*.antt"):
    name = ""
    for line in path.read_text().splitlines():
        if head := re.match(r"\s*(?:abbrev |transparent )?(?:pub )?(?:record |data )?(?:pub )?(\w+) .*[:=]", line):
            if not re.match(r"\s+pub \w+ :", line) or "record" in line:
                name = head[1]
                fields.setdefault(name, set())
        if field := re.match(r"\s+pub (\w+) :", line):
            fields.setdefault(name, set()).add(field[1])


def case(name: str, holds: bool) -> None:
    global passed, failed
    passed, failed = passed + holds, failed + (not holds)
    if not holds:
        print(f"FAILED {name}")


page = re.sub(r"\n\s*", " ", (root / "docs/PROMISES.md").read_text())
known: set[str] = set()
sentences = re.findall(r"\bBy (?:the same: )?`.*?(?=\.(?: |$))|\bBy the same: .*?(?=\.(?: |$))", page)
for sentence in sentences:
    if not sentence.startswith("By the same"):
        known = set()
    if "each accessor" in sentence:
        known |= {"lawful", "legal"}
    words = [word for quoted in re.findall(r"`([^`]+)`", sentence) for word in re.findall(r"[\w:]+", quoted)]
    for word in words:
        *_, last = word.split("::")
        known |= of_types.get(last, set()) if last[0].isupper() else clauses.get(last, set())
        for definition in {last} | cited.get(last, set()):
            known |= fields.get(definition, set())
    for word in words:
        first, *_, last = word.split("::") if "::" in word else (word, word)
        there = last in clauses or last in known or last in of_types or last in fields or last == "for"
        case(f"PROMISES.md: {word}, in: {sentence[:100]}", there or (root / "crates" / word).is_dir())
case("sentences", len(sentences) >= 80)

crate, listed = "", 0
page = (root / "docs/GUARANTEES.md").read_text()
for word in re.finditer(r"`(ls_\w+)`|\b([A-Z][\w/]+) \((\d+)\)", page[page.index("## What an auditor reads") :]):
    crate = word[1] or crate
    if word[3]:
        path, lines, listed = root / "crates" / crate / "specs" / f"{word[2]}.antt", int(word[3]), listed + 1
        count = len(path.read_text().splitlines()) if path.exists() else 0
        case(f"GUARANTEES.md: {crate} {word[2]} has {count} lines", lines * 4 / 5 <= count <= lines * 6 / 5)
case("files for an auditor", listed >= 40)
print(f"{passed} passed, {failed} failed")
sys.exit(failed > 0)
