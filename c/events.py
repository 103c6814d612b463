"""Prints a C header of the tables of cbor_events' tests: events.py FOLDER > events.h

The comments in the tables say what the columns are.
"""

import re
import sys
from pathlib import Path

FOLDER = Path(sys.argv[1])
KINDS = ["unsigned", "negative", "bytes", "text", "array", "map", "tag", "simple", "chunk", "piece", "end"]


def table(name):
    """The rows of a table, each with its columns."""
    text = (FOLDER / "tables.rt").read_text(encoding="utf-8")
    body = re.search(rf'static {name}: &str = r#"\n(.*?)\n"#;', text, re.S)[1]
    return [[column.strip() for column in line.split("|", 4)] for line in body.splitlines()]


def event(words):
    place, name, number, width = words
    return "{%s, %s, %d, %s}" % (
        place, 0 if number == "-" else number + "u", KINDS.index(name), 255 if width == "-" else width)


def row(given, limits, text, status, refusal):
    depth, most = limits.split() or (256, 1 << 20)
    words = text.split()
    events = [event(words[i : i + 4]) for i in range(0, len(words), 4)]
    return '    {"%s", %s, %s, %s, %s, %d, {%s}},' % (
        given, status, refusal, depth, most, len(events), ", ".join(events) or "{0, 0, 0, 0}")


rows = []
for name, status in (("ACCEPTED", "NALTVIGO_OK"), ("PREFIXES", "NALTVIGO_MORE")):
    rows += [row(given, limits, text, status, "{0, 0, 0}") for given, limits, text, _, _ in table(name)]
reasons = dict(re.findall(r"(\w+) = (\d+),", (FOLDER / "../../../cbor_head/src/reason.rt").read_text()))
for given, limits, text, refusal, _ in table("REFUSED"):
    reason, place, read = refusal.split()
    rows.append(row(given, limits, text, "NALTVIGO_REFUSED", "{%s, %s, %s}" % (reasons[reason], place, read)))
if len(rows) < 100:
    sys.exit(f"{FOLDER}: {len(rows)} rows: where are the tables?")
print("static const struct events_row events_rows[] = {")
print("\n".join(rows))
print("};")
