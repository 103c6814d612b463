"""Work on many cases in parallel, each with a program in its own folder."""

import os
from concurrent.futures import ThreadPoolExecutor


def of_all(work, programs, cases):
    """The result of each case; as many run at a time as there are programs."""
    cases = list(cases)

    def go_through(place):
        return [work(programs[place], it) for it in cases[place :: len(programs)]]

    with ThreadPoolExecutor(len(programs)) as pool:
        parts = list(pool.map(go_through, range(len(programs))))
    return [parts[place % len(parts)][place // len(parts)] for place in range(len(cases))]


def unlike(requests_of, programs, cases):
    """The cases that make other requests than those before them, and the first request to refuse."""
    cases, found = list(cases), {}
    for case, asked in zip(cases, of_all(requests_of, programs, cases)):
        found.setdefault(tuple(asked), case)
    common = len(os.path.commonprefix([*found]))
    return [(case, common + 1 if place else 1) for place, case in enumerate(found.values())]
