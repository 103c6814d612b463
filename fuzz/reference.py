"""The results that the definitions require, computed independently: nothing here comes from the library.

RFC 8949 without floating point; deterministic encoding by sections 4.2.1 and 4.2.3. How an input is read
is separate from what is wrong with it: `Form` reads only the heads and collects every complaint, and the
verdict is then the complaint that ends first.
"""

from collections import namedtuple
from itertools import accumulate

from values import (
    ARRAY, BYTES, BYTEWISE, LENGTH_FIRST, MAP, NEGATIVE, SIMPLE, TAG, TEXT, UNSIGNED, canonical, key_of, meaning,
)  # fmt: skip

REASONS = {
    1: "Truncated", 2: "TooLong", 3: "Reserved", 4: "NoIndefinite", 5: "Float", 6: "BadSimple", 7: "StrayBreak",
    8: "BadChunk", 9: "TooDeep", 10: "InvalidText", 11: "RepeatedKey", 12: "Trailing", 13: "CanonicalTooLong",
    14: "NotShortest", 15: "Indefinite", 16: "KeyOrder", 20: "KeyKind",
}  # fmt: skip
KEY_KIND = 20

# The depth that an item may have, its bytes, and the kinds of keys.
Limits = namedtuple("Limits", "depth most keys")

# A refusal, with the offset of what is wrong and the number of bytes consumed.
Refusal = namedtuple("Refusal", "reason place read")

# A head or a break; its argument and width are "-" if it has none.
Event = namedtuple("Event", "place end name argument width")

# A number of bytes from this offset on: the first byte of a head, its argument, or a payload.
Take = namedtuple("Take", "place count is_payload")

# A complaint of valid or deterministic encoding: at equal ends one on a key's kind comes first, one on a whole key last.
Complaint = namedtuple("Complaint", "end rank place reason")
ON_A_KIND, ON_A_PART, ON_A_KEY = range(3)

ANY_KEYS, INTEGERS_AND_TEXTS = 0, 1
KEYS = ("any", "basic")
KINDS = ["unsigned", "negative", "bytes", "text", "array", "map", "tag", "simple"]
FEWEST = {0: 0, 1: 24, 2: 1 << 8, 4: 1 << 16, 8: 1 << 32}


class Break(Exception):
    """The input is not a well-formed item from here on."""

    def __init__(self, reason, place, read):
        self.refusal = Refusal(reason, place, read)


def valid_front(payload):
    """The length of the longest front that is UTF-8."""
    try:
        payload.decode("utf-8")
        return len(payload)
    except UnicodeDecodeError as error:
        return error.start


class Form:
    """The item at the front of an input, by its form; with all complaints that end in what was read.

    `value` and `size` are the item's if it is well-formed within the limits; if not, `broken` says where.
    """

    def __init__(self, given, limits):
        self.bytes, self.limits = given[: limits.most], limits
        self.is_cut = len(given) >= limits.most
        self.at, self.value, self.size, self.broken = 0, None, None, None
        self.events, self.plain, self.strict = [], [], {BYTEWISE: [], LENGTH_FIRST: []}
        self.takes = []
        # for each array, map and tag: the end of its head, its own end and whether it is a map
        self.containers = []
        # for each key that is not inside another key: its start, its end, and where the map's next key or the map ends
        self.keys, self.keys_around = [], 0
        try:
            self.value = self.item(0)
            self.size = self.at
        except Break as stop:
            self.broken = stop.refusal

    def in_both(self, end, place, reason):
        """A complaint by the strict rules, whatever the order."""
        for complaints in self.strict.values():
            complaints.append(Complaint(end, ON_A_PART, place, reason))

    def by_all(self, complaint):
        """A complaint by the plain rules and by the strict ones."""
        for complaints in (self.plain, *self.strict.values()):
            complaints.append(complaint)

    def take(self, count, is_payload=False):
        """This many bytes, or the end of the input or of the limit."""
        self.takes.append(Take(self.at, count, is_payload))
        taken = self.bytes[self.at : self.at + count]
        self.at += len(taken)
        if len(taken) < count:
            raise Break(2 if self.is_cut else 1, self.at, self.at)
        return taken

    def argument(self, first):
        """The argument, and the number of its bytes, of a definite head whose first byte was consumed."""
        information = first & 31
        if information < 24:
            return information, 0
        size = 1 << information - 24
        return int.from_bytes(self.take(size), "big"), size

    def event(self, place, name, argument, width):
        self.events.append(Event(place, self.at, name, argument, width))

    def reported(self, place, major, argument, size, name=None):
        """A definite head, complete; a simple value has only one encoding."""
        if size and argument < FEWEST[size] and major != SIMPLE:
            self.in_both(self.at, place, 14)
        self.event(place, name or KINDS[major], argument, size)

    def opener(self, place, major):
        self.in_both(place + 1, place, 15)
        self.event(place, KINDS[major], "-", "-")

    def first(self, may_close, levels):
        """The first byte of an item, or a break if one may be here."""
        place = self.at
        first = self.take(1)[0]
        major, information = first >> 5, first & 31
        if information in (28, 29, 30):
            raise Break(3, place, self.at)
        if first in (0x1F, 0x3F, 0xDF):
            raise Break(4, place, self.at)
        if first in (0xF9, 0xFA, 0xFB):
            raise Break(5, place, self.at)
        if first == 0xFF and not may_close:
            raise Break(7, place, self.at)
        if major in (ARRAY, MAP, TAG) and levels >= self.limits.depth:
            raise Break(9, place, self.at)
        return first

    def item(self, levels, may_close=False, is_key=False):
        """The value of the next item; None for a break."""
        place = self.at
        first = self.first(may_close, levels)
        if first == 0xFF:
            self.event(place, "end", "-", "-")
            return None
        major = first >> 5
        if is_key and self.limits.keys == INTEGERS_AND_TEXTS and major not in (UNSIGNED, NEGATIVE, TEXT):
            self.by_all(Complaint(place + 1, ON_A_KIND, place, KEY_KIND))
        if major == SIMPLE:
            return self.simple(place, first)
        if first & 31 == 31:
            self.opener(place, major)
            count = None
        else:
            count, size = self.argument(first)
            self.reported(place, major, count, size)
        if major in (UNSIGNED, NEGATIVE):
            return (major, count)
        if major in (BYTES, TEXT):
            return (major, self.payload(major, count) if count is not None else self.chunks(major))
        opened = [self.at, None, major == MAP]
        self.containers.append(opened)
        if major == TAG:
            found = (TAG, count, self.item(levels + 1))
        else:
            members = self.members if major == ARRAY else self.pairs
            found = (major, tuple(members(count, levels + 1)))
        opened[1] = self.at
        return found

    def simple(self, place, first):
        number = first & 31
        size = 0
        if number == 24:
            number, size = self.take(1)[0], 1
            if number < 32:
                raise Break(6, place + 1, self.at)
        self.reported(place, SIMPLE, number, size)
        return (SIMPLE, number)

    def payload(self, major, count):
        start = self.at
        payload = self.take(count, True)
        front = valid_front(payload) if major == TEXT else count
        if front < count:
            self.by_all(Complaint(self.at, ON_A_PART, start + front, 10))
        return payload

    def chunks(self, major):
        parts = []
        while True:
            place = self.at
            first = self.take(1)[0]
            if first == 0xFF:
                self.event(place, "end", "-", "-")
                return b"".join(parts)
            if first >> 5 != major or first & 31 > 27:
                raise Break(8, place, self.at)
            count, size = self.argument(first)
            self.reported(place, major, count, size, "chunk")
            parts.append(self.payload(major, count))

    def members(self, count, levels):
        found = []
        while count is None or len(found) < count:
            it = self.item(levels, may_close=count is None)
            if it is None:
                break
            found.append(it)
        return found

    def pairs(self, count, levels):
        found, meanings, last, kept = [], set(), None, []
        while count is None or len(found) < count:
            place = self.at
            key = self.key(levels, kept, may_close=count is None)
            if key is None:
                break
            encoded = self.bytes[place : self.at]
            if meaning(key) in meanings:
                self.plain.append(Complaint(self.at, ON_A_KEY, place, 11))
            meanings.add(meaning(key))
            for order in (BYTEWISE, LENGTH_FIRST):
                if last is not None and key_of(order, encoded) <= key_of(order, last):
                    self.strict[order].append(Complaint(self.at, ON_A_KEY, place, 16))
            last = encoded
            found.append((key, self.item(levels)))
        self.dropped(kept)
        return found

    def key(self, levels, kept, may_close):
        """The next key; `kept` has the one before it in this map."""
        own = [self.at, None, None]
        if not self.keys_around:
            self.keys.append(own)
        self.keys_around += 1
        key = self.item(levels, may_close, is_key=True)
        self.keys_around -= 1
        if key is None:
            # the break of the map is not a key
            if not self.keys_around:
                self.keys.pop()
        else:
            own[1] = self.at
            self.dropped(kept)
            kept.append(own)
        return key

    def dropped(self, kept):
        for key in kept:
            key[2] = self.at
        kept.clear()

    def opened(self, of_maps=False):
        """The number of arrays, maps and tags, or only of maps, that are open after each number of bytes: from the head's end
        until the last member or the break is complete."""
        changes = [0] * (len(self.bytes) + 2)
        for start, end, is_map in self.containers:
            if is_map or not of_maps:
                changes[start] += 1
                changes[-1 if end is None else end] -= 1
        return list(accumulate(changes))

    def kept(self):
        """After each number of bytes, the number of bytes in the last complete key of an open map or in a key that
        is not complete. A key inside another one counts with that one, which is needed for longer."""
        changes = [0] * (len(self.bytes) + 2)
        for start, end, until in self.keys:
            for place in range(start, len(self.bytes) if end is None else end):
                changes[place + 1] += 1
            if until is not None:
                changes[until] -= end - start
        return list(accumulate(changes))

    def verdict(self, complaints):
        """The complaint that ends first, else the break of form, else None."""
        if complaints:
            it = min(complaints)
            return Refusal(it.reason, it.place, it.end)
        return self.broken


def listing(events):
    """The lines of the events."""
    return "".join(f"{it.place} {it.name} {it.argument} {it.width}\n" for it in events).encode()


class Results:
    """What each call must return for an input."""

    def __init__(self, given, limits):
        self.given, self.limits = given, limits
        self.form = Form(given, limits)
        self.plain = self.form.verdict(self.form.plain)
        self.strict = {order: self.form.verdict(self.form.strict[order]) for order in (BYTEWISE, LENGTH_FIRST)}
        self.size = self.form.size
        self.value = self.form.value if self.plain is None else None

    def whole(self, verdict):
        """The verdict on the whole input as one item."""
        if verdict is None and self.size < len(self.given):
            return Refusal(12, self.size, self.size)
        return verdict

    def canonicalised(self, order):
        """The canonical bytes, or a refusal."""
        refused = self.whole(self.plain)
        if refused:
            return refused
        found = canonical(order, self.value)
        return found if len(found) <= self.limits.most else Refusal(13, self.size, self.size)
