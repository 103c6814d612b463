/* The documentation of the calls, as help() shows it. Its examples are tests. */
#include "native.h"

#define SIGNATURE_END ")\n--\n\n"
#define LIMITS_WORDS "depth=64, max_bytes=1048576, keys='any'"

const char canonicalise_doc[] =
    "canonicalise(data, *, order='bytewise', " LIMITS_WORDS SIGNATURE_END
    "The canonical bytes of `data`, which must be one valid item, in any encoding.\n\n"
    "With the same order, two items have equal canonical bytes if and only if their values are equal. `order` is the order of\n"
    "the keys of a map: 'bytewise' (RFC 8949, section 4.2.1), or 'length', the shorter key first (section 4.2.3). `keys` says which\n"
    "items may be keys of maps: 'any', or 'basic', only integers and texts.\n\n"
    ">>> canonicalise(b'\\x9f\\x18\\x01\\xff')      # [1], of indefinite length and with a 1 of two bytes\n"
    "b'\\x81\\x01'\n"
    ">>> canonicalise(b'\\xa2\\x18\\x64\\x00\\x20\\x00', order='length').hex()      # {100: 0, -1: 0}\n"
    "'a22000186400'\n"
    ">>> canonicalise(b'\\xa1\\x41a\\x00', keys='basic')      # {h'61': 0}\n"
    "Traceback (most recent call last):\n"
    "  ...\n"
    "naltvigo.Refused: refused 20 KeyKind at 1 ($, key 1 of the map at 0): ...\n";

const char check_doc[] =
    "check(data, *, " LIMITS_WORDS SIGNATURE_END
    "Returns None if `data` is one valid item, in any encoding. Raises Refused otherwise.\n\n"
    ">>> check(b'\\x18\\x00')\n"
    ">>> check(b'\\xa2\\x00\\x01\\x18\\x00\\x02')      # {0: 1, 0: 2}\n"
    "Traceback (most recent call last):\n"
    "  ...\n"
    "naltvigo.Refused: refused 11 RepeatedKey at 3 ($, key 2 of the map at 0): ...\n";

const char check_canonical_doc[] =
    "check_canonical(data, *, order='bytewise', " LIMITS_WORDS SIGNATURE_END
    "Returns None if `data` is one valid item in its canonical bytes. Raises Refused otherwise.\n\n"
    "The library allocates no memory for it.\n\n"
    ">>> check_canonical(b'\\x00')\n"
    ">>> check_canonical(b'\\x18\\x00')\n"
    "Traceback (most recent call last):\n"
    "  ...\n"
    "naltvigo.Refused: refused 14 NotShortest at 0: ...\n";

const char is_canonical_doc[] =
    "is_canonical(data, *, order='bytewise', " LIMITS_WORDS SIGNATURE_END
    "Whether `data` is one valid item in its canonical bytes: check_canonical without an exception.\n\n"
    ">>> is_canonical(b'\\x00'), is_canonical(b'\\x18\\x00')\n"
    "(True, False)\n";

const char same_doc[] =
    "same(left, right, *, " LIMITS_WORDS SIGNATURE_END
    "Whether two valid items have the same value: maps by their pairs in any order (RFC 8949, section 5.6.1).\n\n"
    "The limits are for each of the two. `Refused.side` says which input is refused; the left one is judged first.\n\n"
    ">>> same(b'\\x18\\x00', b'\\x00')\n"
    "True\n"
    ">>> same(b'\\x61a', b'\\x41a')      # a text and a byte string\n"
    "False\n";

const char diagnostic_doc[] =
    "diagnostic(data, *, " LIMITS_WORDS SIGNATURE_END
    "The diagnostic text (RFC 8949, section 8) of `data`, which must be one valid item. Pairs keep their order.\n\n"
    ">>> diagnostic(bytes.fromhex('a26161018202f64161'))      # a key that is an array\n"
    "'{\"a\": 1, [2, null]: h\\'61\\'}'\n";

const char items_doc[] = "items(data, *, canonical=False, offsets=False, order='bytewise', " LIMITS_WORDS SIGNATURE_END
                         "The iterator that `naltvigo.items` returns for a buffer.\n";

const char item_ends_doc[] =
    "item_ends(data, *, canonical=False, order='bytewise', " LIMITS_WORDS SIGNATURE_END
    "The offset at which each item of a sequence ends, in an array of unsigned integers. An item begins where the one "
    "before\n"
    "it ends.\n\n"
    "`data` is a buffer. Buffers, limits and Refused are as with `items`; this call is several times as fast.\n\n"
    ">>> item_ends(b'\\x18\\x00\\x61a\\x9f\\xff')\n"
    "array('Q', [2, 4, 6])\n";

const char canonicalise_items_doc[] = "canonicalise_items(data, *, order='bytewise', " LIMITS_WORDS SIGNATURE_END
                                      "What `naltvigo.canonicalise_items` returns for a buffer.\n";

const char dumps_doc[] =
    "dumps(value, *, order='bytewise', " LIMITS_WORDS ", default=None" SIGNATURE_END
    "The canonical bytes of a value.\n\n"
    "A value is an int from -2**64 to 2**64 - 1, bytes, bytearray or memoryview, str, list or tuple, dict, bool, "
    "None,\n"
    "undefined, Tag, Simple, FrozenList, FrozenDict, or an encoded item as Encoded. Of a subclass the content counts, "
    "and no\n"
    "method is called. `default` is called with any other object and returns one of these values, for example the dict "
    "of a\n"
    "dataclass: default=dataclasses.asdict. Without it such an object is a TypeError; a float is one too.\n\n"
    "An integer out of range is an OverflowError, a lone surrogate a UnicodeEncodeError. Refused is raised for what "
    "the\n"
    "library refuses: a value that is nested too deeply or contains itself, is too long, or has two keys with the same\n"
    "bytes. Each of these exceptions has a `path` (naltvigo.path_of) to the faulty part of the value.\n\n"
    ">>> dumps({'Fun': True, 'Amt': -2}).hex()\n"
    "'a263416d74216346756ef5'\n"
    ">>> try:\n"
    "...     dumps({'prices': [1, 2.5]})\n"
    "... except TypeError as error:\n"
    "...     print(path_of(error))\n"
    "$.\"prices\"[1]\n";

const char loads_doc[] =
    "loads(data, *, canonical=False, order='bytewise', " LIMITS_WORDS ", tag_hook=None, map_hook=None" SIGNATURE_END
    "The value of `data`, which must be one valid item. With `canonical` it must also be in its canonical bytes.\n\n"
    "An array becomes a list, and a map a dict whose keys are in canonical order. The keys of a dict need a hash, so an array\n"
    "in a key becomes a FrozenList, and a map in a key a FrozenDict. Every tag becomes a Tag. `tag_hook` is called with each Tag,\n"
    "and `map_hook` with the dict of each map that is not in a key, the inner ones first. What they return replaces the Tag or\n"
    "the dict. The limit `max_bytes` is for the input and for its canonical bytes.\n\n"
    "Raises Refused as `canonicalise` does. Raises ValueError if two keys of a map are equal in Python but not in CBOR, such as\n"
    "1 and True, or if too many keys of a map collide in the hash table of a dict, which happens if somebody chose them for it.\n"
    "Then path_of(error) leads to the map.\n\n"
    ">>> loads(bytes.fromhex('bf6346756ef563416d7421ff'))\n"
    "{'Amt': -2, 'Fun': True}\n"
    ">>> loads(bytes.fromhex('d9d9f7a1820102f7'))\n"
    "Tag(55799, {(1, 2): undefined})\n"
    ">>> import datetime\n"
    ">>> def read_tag(tag):\n"
    "...     return datetime.datetime.fromtimestamp(tag.content, datetime.timezone.utc) if tag.number == 1 else tag\n"
    ">>> loads(bytes.fromhex('c11a514b67b0'), tag_hook=read_tag).isoformat()\n"
    "'2013-03-21T20:04:00+00:00'\n";

const char start_machine_doc[] = "start_machine(*, depth=64, max_bytes=1048576" SIGNATURE_END
                                 "A Machine before an item's first byte, as `events` starts one.\n";

const char refusal_doc[] = "refusal(reason, offset" SIGNATURE_END
                           "The Refused for an item whose bytes arrived in parts, with this reason at this offset.\n";

const char checker_doc[] =
    "Checker(*, order='bytewise', " LIMITS_WORDS SIGNATURE_END
    "Checks one item whose bytes arrive in parts: whether it is valid, and in its canonical bytes.\n\n"
    "`feed(part)` consumes bytes of a buffer, and returns whether the item is complete. `used` is then the number of bytes of\n"
    "this part that belong to the item, and `consumed` the number of all its bytes. Bytes after the item are not used. Call\n"
    "`end()` if no more bytes follow: it returns `consumed`.\n\n"
    "`feed` raises the Refused that `check_canonical` raises for all bytes so far, but without a path. It does not raise\n"
    "Truncated and Trailing. It does not matter where the parts begin. `end` also raises Refused (Truncated) if the item is not\n"
    "complete; after that you may still feed more bytes. After any other refusal, each further call raises it again.\n"
    "`restart()` begins another item with the same options, also after a refusal. After a MemoryError, call it.\n\n"
    "A Checker stores the last key of each open map and all of a key that is not complete, but no other byte of the item. It\n"
    "also needs 10.3 KiB at any depth, and 24 bytes for each open map. Memory that may change is copied first. Use a Checker in\n"
    "one thread at a time: a call during another call raises a ValueError.\n\n"
    ">>> checker = Checker()\n"
    ">>> checker.feed(b'\\x82\\x18'), checker.feed(b'\\x64'), checker.feed(b'\\x01\\xff')      # [100, 1] and another byte\n"
    "(False, False, True)\n"
    ">>> checker.used, checker.consumed, checker.complete\n"
    "(1, 4, True)\n"
    ">>> checker.restart()\n"
    ">>> checker.feed(b'\\x82\\x18')\n"
    "False\n"
    ">>> checker.feed(b'\\x05\\x01')\n"
    "Traceback (most recent call last):\n"
    "  ...\n"
    "naltvigo.Refused: refused 14 NotShortest at 1: ...\n";

const char simple_doc[] =
    "Simple(number)\n--\n\n"
    "A simple value: 0 to 19, or 32 to 255. The four between are False, True, None and undefined.\n\n"
    ">>> dumps(Simple(32))\n"
    "b'\\xf8 '\n";

const char frozen_list_doc[] =
    "An array within a key of a map, as `loads` makes it: a sequence that does not change.\n\n"
    "It equals the tuple of its members and has the same hash, so a dict finds it by this tuple. Keys that are arrays, maps or\n"
    "tags are equal if their canonical bytes are equal: [1] and [true] are two keys.\n\n"
    ">>> value = loads(bytes.fromhex('a2810161618201f56162'))\n"
    ">>> value\n"
    "{(1,): 'a', (1, True): 'b'}\n"
    ">>> value[1, True]\n"
    "'b'\n";

const char frozen_dict_doc[] =
    "FrozenDict(mapping_or_pairs=(), **named)\n--\n\n"
    "A mapping that does not change and has a hash, as a key of a map has to.\n\n"
    "It is made as a dict is, and equals the dict of its pairs. `loads` makes one of each map within a key.\n\n"
    ">>> dumps({FrozenDict({1: 2}): 3})\n"
    "b'\\xa1\\xa1\\x01\\x02\\x03'\n";

const char tag_doc[] =
    "Tag(number, content)\n--\n\n"
    "A tagged value: a number from 0 to 2**64 - 1, and the value that it tags. It does not change.\n\n"
    ">>> Tag(1, 1363896240) == loads(bytes.fromhex('c11a514b67b0'))\n"
    "True\n";
