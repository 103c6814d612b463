"""The example that merges sequences on Dask's engine: its result is that of the definition, however the work is divided."""

import hashlib
import os
import random
import signal
import subprocess
import sys
import tempfile
import unittest
from collections import Counter
from pathlib import Path

import naltvigo

try:
    import distributed
except ImportError:
    distributed = None

EXAMPLE = Path(__file__).resolve().parent.parent / "examples" / "merge_sequences.py"
sys.path.append(str(EXAMPLE.parent))

import merge_sequences  # noqa: E402

needs_dask = unittest.skipUnless(distributed, "python3-distributed is not installed")


def claim(first, second):
    """{1: first, "a": second}: one of many encodings, and the canonical bytes. Both numbers take four bytes."""
    one, other = first.to_bytes(4, "big"), second.to_bytes(4, "big")
    return b"\xbf\x61a\x1a" + other + b"\x01\x1b\0\0\0\0" + one + b"\xff", b"\xa2\x01\x1a" + one + b"\x61a\x1a" + other


def cluster(workers):
    return distributed.LocalCluster(n_workers=workers, threads_per_worker=1, dashboard_address=None, silence_logs=50)


class Merging(unittest.TestCase):
    def setUp(self):
        folder = tempfile.TemporaryDirectory()
        self.addCleanup(folder.cleanup)
        self.folder = folder.name
        chance = random.Random(11)
        claims = [claim(chance.randrange(1 << 16, 1 << 32), chance.randrange(1 << 16, 1 << 32)) for _ in range(20000)]
        self.paths, self.wanted, self.items = [], Counter(), {}
        for name, count in (("a", 30000), ("b", 10000), ("c", 1)):
            self.paths.append(self.path(f"{name}.cborseq"))
            with open(self.paths[-1], "wb") as file:
                for _ in range(count):
                    given, canonical = chance.choice(claims)
                    file.write(given if chance.random() < 0.5 else canonical)
                    address = hashlib.sha256(canonical).digest()
                    self.wanted[address] += 1
                    self.items[address] = canonical

    def path(self, name):
        return os.path.join(self.folder, name)

    def is_merged(self, out, ranges):
        """The files in order hold each item once, sorted by address, and each address with its count."""
        read = lambda kind: b"".join(Path(out, f"{number}.{kind}").read_bytes() for number in range(ranges))
        self.assertEqual(read("cborseq"), b"".join(self.items[address] for address in sorted(self.items)))
        self.assertEqual(read("counts"), b"".join(a + n.to_bytes(8, "big") for a, n in sorted(self.wanted.items())))
        self.assertEqual(len(os.listdir(out)), 2 * ranges)

    def test_parts(self):
        size = os.path.getsize(self.paths[0])
        for part in (1000, 50_000, size, size + 1):
            parts = merge_sequences.cut(self.paths[0], part)
            self.assertEqual([0] + [last for _, last in parts], [first for first, _ in parts] + [size])
            self.assertLess(max(last - first for first, last in parts), part + 100)

    @needs_dask
    def test_however_the_work_is_divided(self):
        items, addresses = sum(self.wanted.values()), len(self.wanted)
        begin = f"{items} items, {addresses} addresses, {items - addresses} repeats, checksum "
        lines = set()
        with cluster(2) as workers, distributed.Client(workers) as client:
            for ranges, size in ((1, 1 << 24), (7, 100_000), (16, 20_000)):
                out = self.path(f"out{ranges}")
                line, _ = merge_sequences.merge(client, self.paths, out, ranges, size)
                self.is_merged(out, ranges)
                self.assertTrue(line.startswith(begin), line)
                lines.add(line)
        self.assertEqual(len(lines), 1)

    @needs_dask
    def test_a_worker_that_is_killed(self):
        with cluster(2) as workers, distributed.Client(workers) as client:
            client.wait_for_workers(2)
            before = set(client.run(os.getpid).values())
            victim = min(before)
            kill = lambda done: os.kill(victim, signal.SIGKILL) if done == 10 and victim in before else None
            merge_sequences.merge(client, self.paths, self.path("out"), 4, 20_000, kill)
            self.is_merged(self.path("out"), 4)

    # A refusal crosses from a worker process with all that it says.
    @needs_dask
    def test_a_refusal(self):
        with cluster(1) as workers, distributed.Client(workers) as client:
            with self.assertRaises(naltvigo.Refused) as caught:
                client.submit(naltvigo.canonicalise, b"\x81\xf9\x3e\x00").result()
        self.assertEqual((caught.exception.reason, caught.exception.name, caught.exception.offset), (5, "Float", 1))

    def refused(self, *words, **more):
        run = subprocess.run([sys.executable, EXAMPLE, *words], stderr=subprocess.PIPE, stdout=subprocess.PIPE, text=True, **more)
        self.assertNotIn("Traceback", run.stderr)
        self.assertNotEqual(run.returncode, 0)
        return run.stderr

    def test_usage_errors(self):
        Path(self.path("empty")).touch()
        self.assertIn("arguments are required: OUT, FILE", self.refused())
        self.assertIn("empty: it holds no item", self.refused(self.path("out"), self.path("empty")))
        self.assertIn("is not a file", self.refused(self.path("out"), self.path("missing")))
        self.assertIn("exists already", self.refused(self.folder, self.paths[0]))
        self.assertIn("at least 1", self.refused(self.path("out"), self.paths[0], "--ranges", "0"))

    @needs_dask
    def test_a_sequence_that_is_refused(self):
        Path(self.path("bad")).write_bytes(b"\x00\x81\xff")
        said = self.refused(self.path("out"), self.path("bad"), "--workers", "1")
        self.assertIn("StrayBreak", said)
        self.assertIn(self.path("bad"), said)

    @needs_dask
    def test_no_scheduler(self):
        for address in ("tcp://127.0.0.1:1", "scheduler-without-a-port"):
            self.assertIn("no scheduler", self.refused(self.path("out"), self.paths[0], "--scheduler", address))


@needs_dask
class Workers(unittest.TestCase):
    def refused(self, found, pattern):
        class Client:
            def run(self, function):
                return found

        with self.assertRaisesRegex(ValueError, pattern):
            merge_sequences.merge(Client(), [], "", 1, 1)

    def test_one_without_the_wheel_is_named(self):
        found = {"tcp://10.0.0.2:4000": "No module named 'naltvigo'"}
        self.refused(found, r"worker tcp://10.0.0.2:4000 cannot import naltvigo .*install the wheel")

    def test_none(self):
        self.refused({}, "the scheduler has no worker")


if __name__ == "__main__":
    unittest.main()
