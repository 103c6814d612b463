"""Times that are compared although other processes run as well: the processor time of this process, the least of some turns."""

import gc
import time

import naltvigo


def least_time(call, turns=5):
    """The least time of the processor that a call takes, in seconds. A ValueError ends it early, and counts as a result."""
    best = float("inf")
    for _ in range(turns):
        gc.collect()
        start = time.process_time()
        try:
            call()
        except ValueError:
            pass
        best = min(best, time.process_time() - start)
    return best


def millisecond():
    """A millisecond; or on a slower processor, what takes one here: 100 checks of 1,000 arrays. In seconds."""
    item = b"\x81" * 1000 + b"\0"
    return max(1e-3, least_time(lambda: [naltvigo.check(item, depth=1024) for _ in range(100)]))
