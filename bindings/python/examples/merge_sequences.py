"""Merges CBOR sequences by content address, on the workers of a Dask cluster.

    python3 merge_sequences.py OUT FILE.. [--scheduler ADDRESS | --workers N] [--ranges N] [--part BYTES]

The content address of an item is the SHA-256 of its canonical bytes, so items of the same value have the same address. OUT
gets two files for each range of addresses: NUMBER.cborseq holds the canonical bytes of each item once, in the order of the
addresses, and NUMBER.counts holds each address (32 bytes) and how often it came (8 bytes, big-endian). The files in order
are sorted as a whole. One line says how many items, addresses and repeats there were, and a checksum of all addresses with
their counts. The checksum does not depend on how the work was divided.

ADDRESS is that of a running scheduler, for example tcp://10.0.0.1:8786. Its workers must see OUT and each FILE under the same
path, and must have the naltvigo wheel. Without ADDRESS, N workers are started on this machine (default 2).

No process reads everything: one worker cuts a file where items end, others canonicalise its parts and sort the items into
ranges, and others merge a range each. The client sees offsets and counts only. If a worker dies, its work is done again by
another one: each file is written under another name and then renamed.
"""

import argparse
import hashlib
import mmap
import os
import shutil
import sys
import time
from bisect import bisect_left
from collections import Counter
from itertools import pairwise

COUNT = 8  # bytes of a count in a .counts file


def cut(path, size):
    """Cuts the file into parts of about `size` bytes, where items end: (first, last) offsets."""
    import naltvigo

    with open(path, "rb") as file, mmap.mmap(file.fileno(), 0, access=mmap.ACCESS_READ) as data:
        try:
            ends = naltvigo.item_ends(data)
        except naltvigo.Refused as refused:
            raise ValueError(f"{path}: {refused}") from None
    steps = range(size, ends[-1] + size, size)
    found = {ends[min(bisect_left(ends, step), len(ends) - 1)] for step in steps}
    return list(pairwise([0, *sorted(found)]))


def write_whole(path, data):
    """Writes a file under another name, and renames it when it is complete."""
    draft = f"{path}.{os.getpid()}"
    with open(draft, "wb") as file:
        file.write(data)
    os.replace(draft, path)


def range_of(address, ranges):
    """The number of the range that an address belongs to: 0 to ranges - 1, in the order of the addresses."""
    return int.from_bytes(address[:8], "big") * ranges >> 64


def sort_part(path, first, last, folder, name, ranges):
    """Canonicalises the items of a part, and writes those of each range to a file. Returns processor seconds."""
    import naltvigo

    began = time.process_time()
    with open(path, "rb") as file:
        file.seek(first)
        canonical, ends = naltvigo.canonicalise_items(file.read(last - first))
    view, found = memoryview(canonical), [[] for _ in range(ranges)]
    for start, end in pairwise([0, *ends]):
        item = view[start:end]
        found[range_of(hashlib.sha256(item).digest(), ranges)].append(item)
    for number, items in enumerate(found):
        if items:
            write_whole(f"{folder}/{number}.{name}", b"".join(items))
    return time.process_time() - began


def merge_range(folder, out, number):
    """Merges the items of a range from all parts. Returns how many items and addresses, a checksum, processor seconds."""
    import naltvigo

    began = time.process_time()
    counts, items = Counter(), {}
    for name in os.listdir(folder):
        if name.split(".")[0] != str(number) or name.count(".") != 1:
            continue
        with open(f"{folder}/{name}", "rb") as file:
            part = file.read()
        for start, end in pairwise([0, *naltvigo.item_ends(part)]):
            address = hashlib.sha256(part[start:end]).digest()
            counts[address] += 1
            if address not in items:
                items[address] = part[start:end]
    order = sorted(items)
    write_whole(f"{out}/{number}.cborseq", b"".join(items[address] for address in order))
    rows = [address + counts[address].to_bytes(COUNT, "big") for address in order]
    write_whole(f"{out}/{number}.counts", b"".join(rows))
    checksum = sum(int.from_bytes(hashlib.sha256(row).digest(), "big") for row in rows) % (1 << 256)
    return sum(counts.values()), len(order), checksum, time.process_time() - began


def lacks_naltvigo():
    """Why this worker cannot do the work, or None."""
    try:
        import naltvigo
    except ImportError as error:
        return str(error)
    return None if hasattr(naltvigo, "canonicalise_items") else "its naltvigo is too old"


def results(jobs, report):
    """The results of the jobs, in their order; `report` gets how many are done."""
    from distributed import as_completed

    for done, _ in enumerate(as_completed(jobs), 1):
        report(done)
    return [job.result() for job in jobs]


def merge(client, paths, out, ranges, size, report=lambda done: None):
    """Merges the sequences of these files. Returns the line on what was found, and the processor seconds of all workers."""
    found = client.run(lacks_naltvigo)
    if not found:
        raise ValueError("the scheduler has no worker: start some with `dask worker ADDRESS`")
    for worker, why in found.items():
        if why:
            raise ValueError(f"the worker {worker} cannot import naltvigo ({why}): install the wheel there")
    folder = f"{out}/parts"
    os.makedirs(folder)
    cuts = client.gather(client.map(cut, paths, size=size, pure=False))
    parts = [(path, *part, f"{at}_{part[0]}") for at, (path, found) in enumerate(zip(paths, cuts)) for part in found]
    jobs = [client.submit(sort_part, path, first, last, folder, name, ranges, pure=False) for path, first, last, name in parts]
    spent = sum(results(jobs, report))
    merged = results([client.submit(merge_range, folder, out, number, pure=False) for number in range(ranges)], report)
    shutil.rmtree(folder)
    items, addresses, checksum, seconds = (sum(column) for column in zip(*merged))
    line = f"{items} items, {addresses} addresses, {items - addresses} repeats, checksum {checksum % (1 << 256):064x}"
    return line, spent + seconds


def connected(words):
    """A client of the scheduler that the words name, or of workers that are started here."""
    from distributed import Client, LocalCluster

    if words.scheduler:
        return Client(words.scheduler, timeout=10)
    # without a dashboard, which needs a port and packages of its own
    return Client(LocalCluster(n_workers=words.workers, threads_per_worker=1, dashboard_address=None))


def words_of(arguments):
    parser = argparse.ArgumentParser(description=__doc__.split("\n\n")[0])
    parser.add_argument("out", metavar="OUT", help="the folder for the result, which must not exist yet")
    parser.add_argument("files", metavar="FILE", nargs="+", help="CBOR sequences")
    where = parser.add_mutually_exclusive_group()
    where.add_argument("--scheduler", metavar="ADDRESS", help="the address of a Dask scheduler")
    where.add_argument("--workers", metavar="N", type=int, default=2, help="start N workers on this machine (default 2)")
    parser.add_argument("--ranges", metavar="N", type=int, default=16, help="how many ranges of addresses (default 16)")
    parser.add_argument("--part", metavar="BYTES", type=int, default=1 << 24, help="the size of a part (default 2^24 bytes)")
    words = parser.parse_args(arguments)
    if min(words.workers, words.ranges, words.part) < 1:
        parser.error("--workers, --ranges and --part are at least 1")
    for path in words.files:
        if not os.path.isfile(path):
            parser.error(f"{path} is not a file")
        if os.path.getsize(path) == 0:
            parser.error(f"{path} is empty: it holds no item")
    if os.path.exists(words.out):
        parser.error(f"{words.out} exists already")
    words.files, words.out = [os.path.abspath(it) for it in words.files], os.path.abspath(words.out)
    return words


def main():
    words = words_of(sys.argv[1:])
    try:
        client = connected(words)
    except ImportError:
        sys.exit("merge_sequences.py: Dask is not installed: it needs the package distributed")
    except (OSError, ValueError) as error:  # ValueError: an address without a port
        sys.exit(f"merge_sequences.py: no scheduler at {words.scheduler}: {error}")
    with client:
        try:
            line, seconds = merge(client, words.files, words.out, words.ranges, words.part)
        except ValueError as error:
            sys.exit(f"merge_sequences.py: {error}")
        print(line)
        print(f"{seconds:.1f} processor seconds in the workers, {time.process_time():.1f} in the client", file=sys.stderr)


# A worker process that is started on this machine imports this file, and must not run it.
if __name__ == "__main__":
    main()
