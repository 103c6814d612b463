#!/usr/bin/env python3
"""Random items and bytes, and what the functions of the database extensions must return for them.

    databases.py sqlite EXTENSION [COUNT [SEED]]    loads the extension, and tries COUNT blobs
    databases.py postgresql [COUNT [SEED]]          writes SQL that does the same; each count at its end must be 0

The results are those of reference.py and values.py, which use nothing from the library. COUNT is 10000 by default.
"""

import random
import re
import sqlite3
import sys
from collections import Counter, namedtuple

from items import Items
from reference import ANY_KEYS, REASONS, Limits, Refusal, Results
from values import ARRAY, BYTES, BYTEWISE, LENGTH_FIRST, MAP, NEGATIVE, SIMPLE, TAG, TEXT, UNSIGNED, canonical, diagnostic, meaning

# The constants of both extensions.
LIMITS = Limits(256, 1 << 25, ANY_KEYS)
ORDERS = {"bytewise": BYTEWISE, "length": LENGTH_FIRST}

# A blob and what is to be returned: `canonical` and `is_canonical` by order, `refusal` or None, `other` and whether it is
# the same, `steps` and the item at this path, `natives` of that item by the name of a call, `rows` of cbor_each. What needs a
# valid item and has none is a refusal.
Case = namedtuple("Case", "given canonical is_canonical refusal text other same steps found natives rows value")


def line(refusal):
    return f"refused {refusal.reason} {REASONS[refusal.reason]} at {refusal.place}"


def key_of(value):
    """An integer or a text of a key as in SQL; None for another key."""
    if value[0] == UNSIGNED and value[1] < 1 << 63:
        return value[1]
    if value[0] == NEGATIVE and value[1] < 1 << 63:
        return -1 - value[1]
    if value[0] == TEXT and b"\0" not in value[1]:
        return value[1].decode()
    return None


def value_of(key):
    if isinstance(key, str):
        return (TEXT, key.encode())
    return (UNSIGNED, key) if key >= 0 else (NEGATIVE, -1 - key)


def step(value, key):
    """The value at a key of a map, at an index of an array, in a tag of this number; or None."""
    if value[0] == MAP:
        return next((content for it, content in value[1] if meaning(it) == meaning(value_of(key))), None)
    if value[0] == ARRAY and key in range(len(value[1])):
        return value[1][key]
    return value[2] if value[0] == TAG and key == value[1] else None


def at(value, steps):
    """The value at a path, or None."""
    for key in steps:
        value = value and step(value, key)
    return value


def natives(value):
    """What each call for a value of SQL returns."""
    number = key_of(value) if value and value[0] in (UNSIGNED, NEGATIVE) else None
    return {
        "int": number,
        "text": key_of(value) if value and value[0] == TEXT else None,
        "bytes": value[1] if value and value[0] == BYTES else None,
        "bool": value[1] == 21 if value and value[0] == SIMPLE and value[1] in (20, 21) else None,
    }


def rows_of(value):
    """The rows of cbor_each: a key or None, and a value."""
    if value[0] == MAP:
        pairs = [(canonical(BYTEWISE, key), canonical(BYTEWISE, content)) for key, content in value[1]]
        return sorted(pairs)
    return [(None, canonical(BYTEWISE, it)) for it in value[1]] if value[0] == ARRAY else []


class Cases:
    def __init__(self, seed):
        self.chance = random.Random(seed)
        self.items = Items(self.chance)
        self.last = Results(b"\x00", LIMITS)

    def there(self, value):
        """The steps that lead from a value to another one and that SQL can express."""
        if value and value[0] == ARRAY:
            return list(range(len(value[1])))
        if value and value[0] == TAG:
            return [value[1]] if value[1] < 1 << 63 else []
        pairs = value[1] if value and value[0] == MAP else ()
        return [key for key in (key_of(key) for key, _ in pairs) if key is not None]

    def steps(self, value):
        """One or two steps, most of which lead to a value."""
        found = []
        for _ in range(self.chance.choice([1, 1, 2])):
            there = self.there(value)
            if there and self.chance.random() < 0.8:
                found.append(self.chance.choice(there))
            else:
                found.append(self.chance.choice([0, 1, -1, 24, -(1 << 63), (1 << 63) - 1, "", "a", "ü", "\U00010151"]))
            value = value and at(value, found[-1:])
        return found

    def given(self):
        chance = self.chance
        if chance.random() < 0.02:
            opener, end = chance.choice([(b"\x81", b""), (b"\x9f", b"\xff"), (b"\xc1", b""), (b"\xa1\x00", b"")])
            levels = chance.choice([1, 255, 256, 257, 300])
            return opener * levels + b"\x00" + end * levels
        found = self.items.item()
        for _ in range(chance.choice([0, 0, 0, 1, 1, 2])):
            found = self.items.changed(found)
        return found

    def next(self):
        given = self.given()
        results = Results(given, LIMITS)
        refused = results.whole(results.plain)
        value = None if refused else results.value
        # an item with the same value, or nearly
        if value and self.chance.random() < 0.5:
            self.last = Results(self.items.spell(self.items.like(value), 0.4), LIMITS)
        other = self.last.whole(self.last.plain)
        same = refused or other or meaning(value) == meaning(self.last.value)
        steps = self.steps(value)
        found = refused or at(value, steps)
        return Case(
            given,
            {name: results.canonicalised(order) for name, order in ORDERS.items()},
            {name: results.whole(results.strict[order]) is None for name, order in ORDERS.items()},
            refused and line(refused),
            refused or diagnostic(value).decode(),
            self.last.given,
            ("left: " if refused else "right: ") + line(same) if isinstance(same, Refusal) else same,
            steps,
            found if refused or found is None else canonical(BYTEWISE, found),
            natives(None if refused else found),
            refused or rows_of(value),
            value,
        )


# ---- SQLite


def asked(database, sql, words):
    try:
        found = database.execute(f"SELECT {sql}", words).fetchall()
        return found if " FROM " in sql else found[0][0]
    except sqlite3.OperationalError as error:
        # without path and sentence, which come from the library
        return (re.sub(r"( at \d+) \(\$.*?\): .*", r"\1", str(error)),)


def error(refusal):
    """As sqlite3 raises it."""
    return ("cbor: " + (refusal if isinstance(refusal, str) else line(refusal)),)


def expect(case, sql, words, wanted):
    if isinstance(wanted, Refusal):
        wanted = error(wanted)
    found = asked(expect.database, sql, words)
    if found != wanted:
        sys.exit(f"{sql} of {case.given.hex()} {words[1:]}\n  wanted {wanted}\n  found  {found}")


def expect_values(case):
    """The item at a path, the rows, and the same item made of them."""
    given, path = (case.given, *case.steps), f"(?{', ?' * len(case.steps)})"
    expect(case, f"cbor_get{path}", given, case.found)
    for name, wanted in case.natives.items():
        expect(case, f"cbor_{name}{path}", given, case.found if isinstance(case.found, Refusal) else wanted)
        if isinstance(case.found, bytes):
            expect(case, f"cbor_{name}(?)", (case.found,), wanted)
    rows = case.rows
    wanted = rows if isinstance(rows, Refusal) else [(at, *row) for at, row in enumerate(rows)]
    expect(case, "ordinal, key, value FROM cbor_each(?)", (case.given,), wanted)
    if case.value and case.value[0] in (ARRAY, MAP) and len(rows) < 60:
        is_map = case.value[0] == MAP
        items = [it for row in reversed(rows) for it in row] if is_map else [value for _, value in rows]
        call = f"cbor_{'map' if is_map else 'array'}({', '.join(['cbor_item(?)'] * len(items))})"
        expect(case, call, items, case.canonical["bytewise"])


def in_sqlite(extension, count, seed):
    expect.database = sqlite3.connect(":memory:")
    expect.database.enable_load_extension(True)
    expect.database.load_extension(extension)
    cases, verdicts = Cases(seed), Counter()
    for _ in range(count):
        case = cases.next()
        verdicts[case.refusal.split()[2] if case.refusal else "valid"] += 1
        verdicts["found"] += isinstance(case.found, bytes)
        one = (case.given,)
        expect(case, "cbor_canonical(?)", one, case.canonical["bytewise"])
        expect(case, "cbor_is_canonical(?)", one, case.is_canonical["bytewise"])
        for order in ORDERS:
            expect(case, "cbor_canonical(?, ?)", (case.given, order), case.canonical[order])
            expect(case, "cbor_is_canonical(?, ?)", (case.given, order), case.is_canonical[order])
        expect(case, "cbor_is_valid(?)", one, case.refusal is None)
        expect(case, "cbor_refusal(?)", one, case.refusal)
        expect(case, "cbor_diagnostic(?)", one, case.text)
        same = error(case.same) if isinstance(case.same, str) else case.same
        expect(case, "cbor_same(?, ?)", (case.given, case.other), same)
        expect_values(case)
    seen = ", ".join(f"{name} {number}" for name, number in verdicts.most_common())
    print(f"SQLite: {count} blobs from seed {seed}, none differs: {seen}")


# ---- PostgreSQL

PREPARE = r"""
CREATE TABLE tried (given bytea, canonical bytea, by_length bytea, is_canonical bool, is_by_length bool, refusal text,
    shown text, other bytea, same bool, same_error text, integer1 int8, text1 text, integer2 int8, text2 text, found bytea,
    an_int int8, a_text text, some_bytes bytea, a_bool bool, rows text);
-- the detail of the error that a call fails with
CREATE FUNCTION detail_of(call text, item bytea, other bytea) RETURNS text LANGUAGE plpgsql AS $$
DECLARE said text; state text;
BEGIN
    EXECUTE 'SELECT ' || call USING item, other;
    RETURN NULL;
EXCEPTION WHEN invalid_binary_representation THEN
    GET STACKED DIAGNOSTICS said = PG_EXCEPTION_DETAIL;
    -- without path and sentence, which are the library's
    RETURN regexp_replace(said, '( at \d+) \(\$.*\): .*', '\1');
END $$;
COPY tried FROM stdin;"""

COMPARE = r"""\.
SELECT count(*) AS blobs, count(canonical) AS valid, count(found) AS found, count(DISTINCT split_part(refusal, ' ', 3)) AS reasons,
    count(*) FILTER (WHERE CASE WHEN refusal IS NULL THEN cbor_canonical(given) END IS DISTINCT FROM canonical
        OR CASE WHEN refusal IS NULL THEN cbor_canonical(given, 'length') END IS DISTINCT FROM by_length) AS wrong_canonical,
    count(*) FILTER (WHERE cbor_is_canonical(given) <> is_canonical OR cbor_is_canonical(given, 'length') <> is_by_length)
        AS wrong_is_canonical,
    count(*) FILTER (WHERE cbor_refusal(given) IS DISTINCT FROM refusal OR cbor_is_valid(given) <> (refusal IS NULL)) AS wrong_refusal,
    count(*) FILTER (WHERE CASE WHEN refusal IS NULL THEN cbor_diagnostic(given) END IS DISTINCT FROM shown) AS wrong_diagnostic,
    count(*) FILTER (WHERE CASE WHEN same_error IS NULL THEN cbor_same(given, other) END IS DISTINCT FROM same) AS wrong_same,
    count(*) FILTER (WHERE CASE WHEN refusal IS NOT NULL THEN NULL WHEN coalesce(integer2::text, text2) IS NULL
        THEN coalesce(cbor_get(given, integer1), cbor_get(given, text1))
        ELSE coalesce(cbor_get(given, integer1, integer2), cbor_get(given, integer1, text2), cbor_get(given, text1, integer2),
            cbor_get(given, text1, text2)) END IS DISTINCT FROM found) AS wrong_get,
    count(*) FILTER (WHERE ROW(cbor_int(found), cbor_text(found), cbor_bytes(found), cbor_bool(found))
        IS DISTINCT FROM ROW(an_int, a_text, some_bytes, a_bool)) AS wrong_values,
    count(*) FILTER (WHERE refusal IS NULL AND coalesce(integer2::text, text2) IS NULL AND
        ROW(coalesce(cbor_int(given, integer1), cbor_int(given, text1)), coalesce(cbor_text(given, integer1), cbor_text(given, text1)),
            coalesce(cbor_bytes(given, integer1), cbor_bytes(given, text1)), coalesce(cbor_bool(given, integer1), cbor_bool(given, text1)))
        IS DISTINCT FROM ROW(an_int, a_text, some_bytes, a_bool)) AS wrong_paths,
    count(*) FILTER (WHERE CASE WHEN refusal IS NULL THEN (SELECT string_agg(concat_ws(':', ordinal, key::text, value::text), ',' ORDER BY ordinal)
        FROM cbor_each(given)) END IS DISTINCT FROM rows) AS wrong_rows,
    count(*) FILTER (WHERE canonical <> CASE WHEN refusal IS NULL THEN CASE get_byte(canonical, 0) >> 5
        WHEN 4 THEN (SELECT cbor_array(VARIADIC coalesce(array_agg(value ORDER BY ordinal), '{}')) FROM cbor_each(given))
        WHEN 5 THEN (SELECT cbor_map(VARIADIC coalesce(array_agg(it ORDER BY ordinal DESC, place), '{}'))
            FROM cbor_each(given), unnest(ARRAY[key, value]) WITH ORDINALITY u (it, place)) END END) AS wrong_made,
    count(*) FILTER (WHERE detail_of('cbor_canonical($1)', given, NULL) IS DISTINCT FROM refusal
        OR detail_of('cbor_diagnostic($1)', given, NULL) IS DISTINCT FROM refusal
        OR detail_of('cbor_get($1, 0)', given, NULL) IS DISTINCT FROM refusal
        OR detail_of('cbor_same($1, $2)', given, other) IS DISTINCT FROM same_error) AS wrong_errors
FROM tried;"""


ESCAPES = str.maketrans({"\\": r"\\", "\n": r"\n", "\r": r"\r", "\t": r"\t"})


def column(it):
    """A value as COPY reads it."""
    if it is None or isinstance(it, Refusal):
        return r"\N"
    if isinstance(it, bool):
        return "t" if it else "f"
    return r"\\x" + it.hex() if isinstance(it, bytes) else str(it).translate(ESCAPES)


def row(case):
    is_error = isinstance(case.same, str)
    keys = []
    for key in (case.steps + [None])[:2]:
        keys += [None, key] if isinstance(key, str) else [key, None]
    rows = None
    if case.value and case.rows:
        rows = ",".join(":".join(str(it) for it in (at, *(r"\x" + it.hex() for it in row if it is not None))) for at, row in enumerate(case.rows))
    return [
        case.given, *case.canonical.values(), *case.is_canonical.values(), case.refusal, case.text, case.other,
        None if is_error else case.same, case.same if is_error else None, *keys, case.found, *case.natives.values(), rows,
    ]  # fmt: skip


def for_postgresql(count, seed):
    cases = Cases(seed)
    print(PREPARE)
    for _ in range(count):
        print("\t".join(column(it) for it in row(cases.next())))
    print(COMPARE)


def main(words):
    numbers = [int(word) for word in words[1 + (words[:1] == ["sqlite"]) :]]
    count, seed = (numbers + [10000, 1][len(numbers) :])[:2]
    if words[:1] == ["sqlite"] and len(words) > 1:
        in_sqlite(words[1], count, seed)
    elif words[:1] == ["postgresql"]:
        for_postgresql(count, seed)
    else:
        sys.exit(__doc__)


if __name__ == "__main__":
    main(sys.argv[1:])
