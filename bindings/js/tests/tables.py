"""Prints the repository's tables of inputs and results as JSON, for the tests in JavaScript: tests/tables.py"""

import json
import re
import sys
from pathlib import Path

ROOT = Path(__file__).resolve().parents[3]
sys.path.insert(0, str(ROOT / "c"))
sys.dont_write_bytecode = True
from rows import pairs_of, rows_of  # noqa: E402


def one(pattern):
    return next(ROOT.glob(f"crates/*/src/tests/{pattern}"))


def event_rows(name):
    text = one("tables.rt").read_text(encoding="utf-8")
    body = re.search(rf'static {name}: &str = r#"\n(.*?)\n"#;', text, re.S)[1]
    for line in body.splitlines():
        given, limits, events, result, comment = [column.strip() for column in line.split("|", 4)]
        depth, most = limits.split() or (256, 1 << 20)
        yield dict(given=given, depth=int(depth), maxBytes=int(most), events=" ".join(events.split()), result=result, text=comment)


tables = sorted(one("conformance_table.rt").parent.glob("*_table.rt"))
rows = [
    dict(given=given, depth=limits.depth, maxBytes=limits.most, keys=limits.keys,
         results=[dict(canonical=it[0], refusal=it[1], strict=it[2]) for it in results])
    for given, limits, results in rows_of(tables)
]
pairs = [dict(left=left, right=right, result=result[0], refusal=result[1]) for left, right, result in pairs_of(tables)]
events = {name.lower(): list(event_rows(name)) for name in ("ACCEPTED", "NOT_VALID", "PREFIXES", "REFUSED")}
json.dump(dict(rows=rows, pairs=pairs, events=events), sys.stdout)
