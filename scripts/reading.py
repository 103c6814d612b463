"""The counts of docs/READING.md: lines that must be believed, by file, and what crates use of each other's internals."""

import re

from sources import ROOT, short

READING = ROOT / "docs" / "READING.md"
README = ROOT / "README.md"
TAKEN = "| Crate | Inner names | taken from | Lemmas | taken from |"


def lines_of(definitions):
    return sum(len(d.lines) + d.comments for d in definitions)


def by_file(definitions):
    files = {}
    for definition in definitions:
        files.setdefault(short(definition.path), []).append(definition)
    return files


def by_crate(names):
    """How many names of each crate, the most first."""
    crates = [module.split(".")[1] for module, _ in names]
    counts = sorted({(-crates.count(it), it) for it in crates})
    return ", ".join(f"`{crate}` {-count}" for count, crate in counts)


class Counts:
    """What was counted: `headline` and `public` have the definitions that contracts reach, `taken` the inner names and the
    lemmas that each crate takes."""

    def __init__(self, definitions, headline, public, taken, theory):
        self.definitions, self.headline, self.public, self.taken = definitions, headline, public, taken
        self.theory = theory
        self.headline_lines = lines_of(it for it in definitions if it.key in headline)
        self.public_lines = lines_of(it for it in definitions if it.key in public)
        self.names, self.lemmas = (sum(len(it[kind]) for it in taken.values()) for kind in (0, 1))

    def print_files(self):
        print(f"{'file':52} {'headline':>8} {'public':>8} {'all':>8}")
        for file, its in sorted(by_file(self.definitions).items()):
            counts = [lines_of([d for d in its if d.key in c]) for c in (self.headline, self.public)]
            print(f"{file:52} {counts[0]:8} {counts[1]:8} {lines_of(its):8}")

    def print_totals(self):
        print(f"to be believed for the headline: {self.headline_lines} lines; for everything public:"
              f" {self.public_lines} lines; of {lines_of(self.definitions)} under specs/")
        for crate, (names, lemmas) in self.taken.items():
            if names or lemmas:
                print(f"{crate} takes {len(names)} inner names and {len(lemmas)} lemmas of other crates")
        by_theory = [sum(len(self.taken[it][kind]) for it in self.theory & set(self.taken)) for kind in (0, 1)]
        of_these = f", of which theory takes {by_theory[0]} and {by_theory[1]}" if any(by_theory) else ""
        print(f"taken in all: {self.names} inner names and {self.lemmas} lemmas{of_these}")

    # ---- docs/READING.md

    def rows_taken(self):
        """The table of what crates take: a row for each crate that takes something, and the sum."""
        yield TAKEN
        yield "|---|---:|---|---:|---|"
        for crate, (names, lemmas) in self.taken.items():
            if names or lemmas:
                yield f"| `{crate}` | {len(names)} | {by_crate(names)} | {len(lemmas)} | {by_crate(lemmas)} |"
        yield f"| all | {self.names} | | {self.lemmas} | |"

    def written(self, text):
        """The text of docs/READING.md with these counts."""
        text = re.sub(r"(for the headline: )\d+( lines)", rf"\g<1>{self.headline_lines}\g<2>", text)
        text = re.sub(r"(for everything public: )\d+( lines)", rf"\g<1>{self.public_lines}\g<2>", text)
        counts = self.counts_of_headline()

        def row(it):
            file = moved(it.group(1), counts)
            return f"| `{file}`{it.group(2)}| {counts.get(file, 0)} |"

        text = re.sub(r"(?m)^\| `([\w/.]+\.antt)`(.*)\| \d+ \|$", row, text)
        before, found, rest = text.partition(TAKEN)
        after = rest.partition("\n\n")
        return before + "\n".join(self.rows_taken()) + (after[1] + after[2] or "\n") if found else text

    def counts_of_headline(self):
        return {file: lines_of(its) for file, its in by_file(d for d in self.definitions if d.key in self.headline).items()}

    def write(self):
        text = READING.read_text()
        before, after = ceilings(text), ceilings(self.written(text))
        for crate in sorted(after):
            for place, what in enumerate(("inner names", "lemmas")):
                was, now = before.get(crate, (0, 0))[place], after[crate][place]
                if now > was:
                    print(f"{crate}: {what} rose from {was} to {now}")
        READING.write_text(self.written(text))

    def faults(self):
        text = READING.read_text()
        for crate, allowed in ceilings("\n".join(self.rows_taken())).items():
            for now, most, what in zip(allowed, ceilings(text).get(crate, (0, 0)), ("inner names", "lemmas")):
                if now > most:
                    yield f"{crate} takes {now} {what} of other crates; at most {most} are allowed"
        if text != self.written(text):
            yield "the counts in docs/READING.md are out of date: run scripts/belief.py --write"
        for count in re.findall(r"(\d+) lines for the headline", README.read_text()):
            if int(count) != self.headline_lines:
                yield f"README.md says {count} lines for the headline; there are {self.headline_lines}"
        yield from self.faults_of_tables(text)

    def faults_of_tables(self, text):
        """Files that must be read and that no table has, or the reverse."""
        headline, _, rest = text.partition("\n## Everything public\n")
        listed = re.findall(r"(?m)^\| `([\w/.]+\.antt)`", headline)
        for file in sorted({it for it in listed if listed.count(it) > 1}):
            yield f"the table of the headline in docs/READING.md has {file} twice"
        yield from unlike("the headline", set(listed), set(self.counts_of_headline()))
        crate, rows = None, set()
        for line in rest.partition("\n## ")[0].splitlines():
            cells = [it.strip() for it in line.split("|")[1:-1]]
            if len(cells) == 3:
                crate = cells[0].strip("`") or crate
                rows |= {f"{crate}/specs/{it}.antt" for it in re.findall(r"`(\w+)`", cells[1])}
        beyond = {short(d.path) for d in self.definitions if d.key in self.public and d.key not in self.headline}
        yield from unlike("everything public", rows, beyond)


def unlike(what, listed, reached):
    for files, says in ((reached - listed, "lacks"), (listed - reached, "has files that nothing reaches")):
        if files:
            yield f"the table of {what} in docs/READING.md {says}: {', '.join(sorted(files))}"


def moved(file, reached):
    """The path of a file that moved to another crate."""
    found = [it for it in reached if it.partition("/")[2] == file.partition("/")[2]]
    return found[0] if file not in reached and len(found) == 1 else file


def ceilings(text):
    """How many names and lemmas a crate may take, by the table."""
    rows = re.findall(r"(?m)^\| `?(\w+)`? \| (\d+) \|[^|]*\| (\d+) \|[^|]*\|$", text.partition(TAKEN)[2] or text)
    return {crate: (int(names), int(lemmas)) for crate, names, lemmas in rows}
