"""Prints the costs of calls next to those of cbor2's C extension and of json, as Markdown tables, in one run: bench.py [TURNS]

Each number is the least of many short runs, turn by turn, in microseconds of the processor a call. Python's collector of
cycles is on, as it is in programs.
"""

import gc
import json
import random
import sys
import time
import timeit

import naltvigo
from naltvigo import dumps, loads

try:
    import cbor2
except ImportError:
    sys.exit("cbor2 is not installed (Debian's python3-cbor2, with /usr/bin/python3)")

# the claims of a token (RFC 8392, appendix A.1), less the last
CLAIMS = {
    3: "coap://light.example.com", 4: 1444064944, 5: 1443944944, 6: 1443944944,
    2: "erikw", 1: "coap://as.example.com",
}  # fmt: skip


def record(rng, name):
    return {
        "id": rng.randrange(1 << 40), "name": name, "active": rng.random() < 0.5, "parent": None,
        "created": 1_700_000_000 + rng.randrange(1 << 24), "balance": -rng.randrange(1 << 20),
        "tags": [rng.choice(("red", "green", "blue", "large")) for _ in range(rng.randrange(4))],
        "hash": rng.randbytes(32), "place": {"street": "Hauptstraße " + str(rng.randrange(99)), "zip": rng.randrange(99999)},
    }  # fmt: skip


def kilobyte(rng):
    return {
        "version": 3, "subject": "urn:uuid:1b4e28ba-2fa1-11d2-883f-0016d3cca427", "issuer": "https://issuer.example/keys/2026",
        "serial": 2**63 + 12345, "key": {1: 2, 3: -7, -1: 1, -2: rng.randbytes(32), -3: rng.randbytes(32)},
        "claims": {f"claim-{i:02}": [i, -i, f"value {i}", i % 2 == 0] for i in range(24)},
        "extensions": [{"oid": f"1.3.6.1.4.1.{i}", "critical": False, "data": rng.randbytes(16)} for i in range(6)],
    }  # fmt: skip


def least(calls, turns, number):
    """The least time of each call, in microseconds."""
    best = [float("inf")] * len(calls)
    for _ in range(turns):
        for i, call in enumerate(calls):
            best[i] = min(best[i], timeit.timeit(call, gc.enable, time.process_time, number) / number * 1e6)
    return best


def as_json(value):
    """The value as json takes it: a byte string is hex digits there, and keys are texts."""
    if isinstance(value, bytes):
        return value.hex()
    if isinstance(value, list):
        return [as_json(it) for it in value]
    return {str(key): as_json(it) for key, it in value.items()} if isinstance(value, dict) else value


def row(name, value, number, turns):
    data, plain = dumps(value), cbor2.dumps(value)
    assert dumps(value, order="length") == cbor2.dumps(value, canonical=True), name
    assert loads(data) == value == cbor2.loads(data), name
    readable = as_json(value)
    text = json.dumps(readable)
    put, its_put, json_put, took, took_plain, its_took, json_took = least(
        [
            lambda: dumps(value),
            lambda: cbor2.dumps(value, canonical=True),
            lambda: json.dumps(readable, sort_keys=True),
            lambda: loads(data),
            lambda: loads(plain),
            lambda: cbor2.loads(data),
            lambda: json.loads(text),
        ],
        turns,
        number,
    )
    writes = f"{put:,.2f} | {its_put:,.2f} | {its_put / put:.1f} | {json_put:,.2f}"
    reads = f"{took:,.2f} | {its_took:,.2f} | {its_took / took:.1f} | {json_took:,.2f} | {took_plain:,.2f}"
    return f"| {name}, {len(data):,} bytes | {writes} | {reads} |"


def calls_on_bytes(turns):
    """What calls on bytes cost; of canonicalise also beyond the library, whose part is that of one item of a thousand."""
    data = cbor2.dumps(CLAIMS)
    canonical, many = dumps(CLAIMS), data * 1000
    one, check, strict, is_canonical, text = least(
        [
            lambda: naltvigo.canonicalise(data),
            lambda: naltvigo.check(data),
            lambda: naltvigo.check_canonical(canonical),
            lambda: naltvigo.is_canonical(canonical),
            lambda: naltvigo.diagnostic(canonical),
        ],
        turns * 40,
        200,
    )
    both, ends = least([lambda: naltvigo.canonicalise_items(many), lambda: naltvigo.item_ends(many)], turns * 10, 1)
    return [
        ("`canonicalise`", one), ("beyond the library's own part", one - (both - ends) / 1000), ("`check`", check),
        ("`check_canonical`", strict), ("`is_canonical`", is_canonical), ("`diagnostic`", text),
        ("`item_ends`, an item of a thousand", ends / 1000), ("`canonicalise_items`, an item of a thousand", both / 1000),
    ]  # fmt: skip


def main():
    turns = int(sys.argv[1]) if len(sys.argv) > 1 else 60
    rng = random.Random(1)
    records = [record(rng, f"name-{i}") for i in range(6540)]
    print("| microseconds in Python | `dumps` | cbor2, canonical | times | json | `loads` | cbor2 | times | json | `loads`, not canonical |")
    print("|---|" + "---:|" * 9)
    inputs = ("claims", CLAIMS, 200, 40 * turns), ("a certificate", kilobyte(rng), 50, 10 * turns), ("records", records, 1, turns)
    for name, value, number, often in inputs:
        print(row(name, value, number, often))
    print("\n| claims, in bytes | microseconds in Python |\n|---|---:|")
    for name, time in calls_on_bytes(turns):
        print(f"| {name} | {time:.2f} |")


if __name__ == "__main__":
    main()
