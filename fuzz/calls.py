"""What each call of the strict reader must return, and what it must request from its reader, from the form of the input."""

TRUNCATED, TOO_LONG, FORM_REASONS = 1, 2, range(3, 10)

# A payload is requested in parts of at most this many bytes.
PART = 512


class Strictly:
    """The state of `StrictReader` on an input after each number of bytes; crates/fuzz_readers explains the words."""

    def __init__(self, results):
        self.results, self.form = results, results.form
        self.events = {it.end: it for it in self.form.events}
        self.open, self.spans, self.kept = self.form.opened(), self.form.opened(of_maps=True), self.form.kept()

    def word(self, order, part):
        """The results with a reader that returns at most this many bytes a read."""
        return Calls(self, order, part).word()


class Calls:
    def __init__(self, of, order, part):
        self.of, self.refused, self.part = of, of.results.strict[order], part
        self.taken = self.held = 0
        self.requested, self.reported = [], []

    def word(self):
        it = self.of.results
        self.read_on()
        if self.refused:
            last = "!%d,%d,%d" % self.refused
            self.held = 0
        else:
            last = "none"
        calls = "".join(self.reported) + 3 * self.call(last, self.refused)
        return f"{calls}:{''.join(f'{count}+' for count in self.requested)}:{len(it.given) - self.taken}"

    def call(self, result, refused=None):
        """A result, and the state of the reader after it."""
        # a byte that cannot follow opens nothing
        at = self.taken - (refused is not None and refused.reason in FORM_REASONS)
        spans, kept = (0, 0) if refused else (self.of.spans[at], self.of.kept[at])
        return f"{result},{self.taken},{self.of.open[at]},{spans},{kept},{self.held};"

    def read(self, wanted):
        """The number of bytes that are read of those requested: nothing is requested past the limit."""
        wanted = min(wanted, self.of.results.limits.most - self.taken)
        if wanted == 0:
            return 0
        self.requested.append(wanted)
        count = min(wanted, self.part, len(self.of.results.given) - self.taken)
        self.taken += count
        return count

    def read_on(self):
        """The events, up to the end of the item or the refusal."""
        for take in self.of.form.takes:
            left = take.count
            while left:
                count = self.read(min(left, PART) if take.is_payload else left)
                left -= count
                if count == 0 or self.is_refused():
                    return
                if take.is_payload:
                    self.report_piece(count)
                elif left == 0 and self.taken in self.of.events:
                    self.report(self.of.events[self.taken])

    def is_refused(self):
        """Whether the refusal replaces the event that ends here; only a read notices the end of the input."""
        it = self.refused
        return it and it.reason not in (TRUNCATED, TOO_LONG) and it.read == self.taken

    def report(self, event):
        self.reported.append(self.call(f"{event.name},{event.argument},{event.place},{event.width}"))

    def report_piece(self, count):
        place = self.taken - count
        self.held = count
        self.reported.append(self.call(f"piece,{count},{place},0,{self.of.form.bytes[place : self.taken].hex()}"))
