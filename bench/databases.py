"""Times queries on 100,000 documents in SQLite or PostgreSQL, as CBOR and as JSON, and prints a Markdown table.

    databases.py sqlite EXTENSION
    databases.py postgresql            psql on the path is the client of a server that has the extension

Each time is the least of five runs: processor time in SQLite, the server's own time, by one process, in PostgreSQL.
"""

import re
import sqlite3
import subprocess
import sys
from time import process_time

TURNS = 5
ROWS = 100_000
# What is asked, the expression on CBOR, on JSON in SQLite, and on jsonb in PostgreSQL.
QUERIES = [
    ("an integer", "sum(cbor_int(doc, 'id'))", "sum(json_extract(text, '$.id'))", "sum((text->>'id')::bigint)"),
    ("a text in an array", "max(cbor_text(doc, 'tags', 1))", "max(json_extract(text, '$.tags[1]'))", "max(text->'tags'->>1)"),
    ("is it canonical", "count(nullif(cbor_is_canonical(doc), {no}))", "sum(json_valid(text))", None),
    ("the canonical bytes, JSON without spaces", "sum(length(cbor_canonical(doc)))", "sum(length(json(text)))", None),
]
# Documents of five members, as an application stores them.
MEMBERS = "'id', {n}, 'name', 'name-' || {n}, 'balance', -{n}, 'parent', NULL, 'tags', {array}('red', 'large')"


class SQLite:
    title, no = "SQLite", "0"

    def __init__(self, extension):
        self.base = sqlite3.connect(":memory:")
        self.base.enable_load_extension(True)
        self.base.load_extension(extension)
        cbor, json = MEMBERS.format(n="i", array="cbor_array"), MEMBERS.format(n="i", array="json_array")
        self.base.execute(f"""CREATE TABLE records AS WITH RECURSIVE numbers (i) AS (SELECT 1 UNION ALL SELECT i + 1 FROM numbers
            WHERE i < {ROWS}) SELECT cbor_map({cbor}) AS doc, json_object({json}) AS text FROM numbers""")

    def run(self, expression):
        began = process_time()
        result = self.base.execute(f"SELECT {expression} FROM records").fetchone()[0]
        return (process_time() - began) * 1e3, str(result)


class PostgreSQL:
    title, no = "PostgreSQL", "false"

    def __init__(self):
        cbor, json = MEMBERS.format(n="i", array="cbor_array"), MEMBERS.format(n="i", array="jsonb_build_array")
        self.ask(f"""CREATE TABLE records AS SELECT cbor_map({cbor})::bytea AS doc, jsonb_build_object({json}) AS text
            FROM generate_series(1::bigint, {ROWS}) AS i""")
        self.ask("VACUUM ANALYZE records")

    def ask(self, words):
        command = ["psql", "-XAtq", "-v", "ON_ERROR_STOP=1", "-c", "SET max_parallel_workers_per_gather = 0", "-c", words]
        return subprocess.run(command, check=True, capture_output=True, text=True).stdout.strip()

    def run(self, expression):
        select = f"SELECT {expression} FROM records"
        plan = self.ask(f"EXPLAIN (ANALYZE, TIMING OFF, COSTS OFF) {select}")
        return float(re.search(r"Execution Time: ([\d.]+) ms", plan)[1]), self.ask(select)


def least(base, expression):
    """The least time, and the result, which is always the same."""
    runs = [base.run(expression) for _ in range(TURNS)]
    assert len({result for _, result in runs}) == 1, expression
    return min(time for time, _ in runs), runs[0][1]


def main():
    base = SQLite(sys.argv[2]) if sys.argv[1] == "sqlite" else PostgreSQL()
    column = 2 if sys.argv[1] == "sqlite" else 3
    print(f"| {ROWS:,} documents in {base.title}, ms | CBOR | {'JSON' if column == 2 else 'jsonb'} |\n|---|---:|---:|")
    for query in QUERIES:
        time, result = least(base, query[1].format(no=base.no))
        its = ""
        if query[column]:
            its_time, its_result = least(base, query[column])
            # the canonical bytes are shorter than the text
            assert its_result == result or "length" in query[1], query[0]
            its = f"{its_time:.1f}"
        print(f"| {query[0]} | {time:.1f} | {its} |")


if __name__ == "__main__":
    main()
