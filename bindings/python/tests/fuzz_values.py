"""Random and damaged bytes through every call, best with an extension that a sanitizer watches.

    fuzz_values.py [COUNT [SEED]]    COUNT inputs (100,000), from the seed SEED (1)

Bytes that `check` accepts must come back from dumps(loads(..)) as canonicalise writes them; bytes that it refuses must be
refused by loads for the same reason at the same offset. A Checker must say of parts what check_canonical says of all bytes so
far. A failure names the seed and the input.
"""

import random
import sys

import naltvigo
from items import any_encoding, some_value
from naltvigo import Refused

# breaks, indefinite lengths, a reserved byte, lengths that no input has, and keys that are equal in Python
INSERTED = [bytes.fromhex(one) for one in ("ff", "9f", "bf", "7f", "1c", "5bffffffffffffffff", "bb00000000000000", "f5", "01")]


def damaged(rng):
    """An item, a sequence or noise, with some bytes changed, doubled or left out."""
    if rng.random() < 0.1:
        return bytearray(rng.randbytes(rng.randrange(40)))
    data = bytearray(b"".join(any_encoding(some_value(rng, 4), rng) for _ in range(1 if rng.random() < 0.8 else 3)))
    for _ in range(rng.choice((0, 1, 1, 2, 5))):
        at = rng.randrange(len(data) + 1)
        change = rng.randrange(4)
        if change == 0 and at < len(data):
            data[at] = rng.randrange(256)
        elif change == 1:
            data[at:at] = rng.choice(INSERTED)
        elif change == 2:
            del data[at : at + rng.randrange(4)]
        else:
            data[at:at] = data[at : at + rng.randrange(20)]
    return data


def outcome(call, *words, **options):
    try:
        return call(*words, **options)
    except ValueError as error:
        return error


def judge(data, options):
    """What is wrong with the results on this input, or None."""
    refusal = outcome(naltvigo.check, data, **options)
    value = outcome(naltvigo.loads, data, **options)
    if refusal is not None:
        return None if isinstance(value, Refused) and str(value) == str(refusal) else f"loads: {value!r}, check: {refusal!r}"
    canonical = naltvigo.canonicalise(data, **{**options, "max_bytes": 1 << 30})
    if isinstance(value, ValueError):
        return None if "equal in Python" in str(value) else f"loads: {value!r}"
    if naltvigo.dumps(value, **{**options, "max_bytes": 1 << 30}) != canonical:
        return f"dumps(loads(..)) is not {canonical.hex()}"
    if naltvigo.is_canonical(data, **options) is not (data == canonical):
        return "is_canonical is wrong"
    if naltvigo.diagnostic(canonical, depth=1024) != naltvigo.diagnostic(naltvigo.dumps(value, depth=1024), depth=1024):
        return "the diagnostic text of dumps(loads(..)) is another"
    return None


def judge_sequence(data):
    found, ends = [], outcome(naltvigo.item_ends, data)
    error = None
    try:
        for pair in naltvigo.items(data, offsets=True):
            found.append(pair)
    except Refused as refused:
        error = refused
    if isinstance(ends, Refused):
        return None if str(ends) == str(error) else f"item_ends: {ends}, items: {error}"
    if [end for _, end in found] != list(ends):
        return "item_ends and items differ"
    result = naltvigo.canonicalise_items(data, max_bytes=1 << 30)
    canonical = [naltvigo.canonicalise(item, max_bytes=1 << 30) for item in naltvigo.items(data)]
    return None if result[0] == b"".join(canonical) else "canonicalise_items is not canonicalise of each"


def judge_parts(data, options, rng):
    """What a Checker says of the parts, next to what check_canonical says of all bytes so far."""
    checker, begin = naltvigo.Checker(**options), 0
    for end in sorted(rng.choices(range(len(data) + 1), k=rng.choice((1, 2, 20)))) + [len(data)]:
        found, wanted = outcome(checker.feed, data[begin:end]), outcome(naltvigo.check_canonical, data[:end], **options)
        begin = end
        if isinstance(wanted, Refused) and wanted.name == "Truncated":
            if found is not False or checker.consumed != end:
                return f"a part up to {end}: {found}, and not {wanted}"
            continue
        length = wanted.offset if isinstance(wanted, Refused) and wanted.name == "Trailing" else end if wanted is None else None
        if found is not True if length is not None else place(found) != place(wanted):
            return f"a part up to {end}: {found}, and not {wanted}"
        if checker.consumed != (wanted.consumed if length is None else length):
            return f"a part up to {end}: {checker.consumed} bytes consumed"
        break
    found, wanted = outcome(naltvigo.check_stream, [data[:begin], data[begin:]], **options), outcome(naltvigo.check_canonical, data, **options)
    return None if (found == len(data) if wanted is None else place(found) == place(wanted)) else f"check_stream: {found}, and not {wanted}"


def place(refused):
    return (refused.reason, refused.offset, refused.consumed) if isinstance(refused, Refused) else refused


def main():
    count = int(sys.argv[1]) if len(sys.argv) > 1 else 100_000
    seed = int(sys.argv[2]) if len(sys.argv) > 2 else 1
    rng = random.Random(seed)
    accepted = 0
    for turn in range(count):
        data = damaged(rng)
        options = {"depth": rng.choice((1, 3, 12, 1024)), "keys": rng.choice(("any", "any", "basic"))}
        options["max_bytes"] = rng.choice((10, 1 << 20))
        wrong = judge(data, options) or judge_sequence(data) or judge_parts(data, options, rng)
        if wrong:
            sys.exit(f"seed {seed}, input {turn}, {data.hex()}, {options}: {wrong}")
        accepted += outcome(naltvigo.check, data) is None
    print(f"{count} inputs from seed {seed}, {accepted} of them valid items: none wrong")


if __name__ == "__main__":
    main()
