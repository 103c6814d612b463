"""What the tests of the built program share: runs of it in a folder of their own, and the list of faults.

The program is the first word of the script that imports this; if there is none, crates/cborc/out/cborc is built by
`rt run`.
"""

import os
import resource
import subprocess
import sys
import tempfile

# The content of OUT before a run.
BEFORE = b"\x80"
# The claims of a token (RFC 8392), 75 bytes of them.
CLAIMS = (
    b"\xa7\x01\x75coap://as.example.com\x02\x66erikwm\x03\x73coaps://example.com"
    b"\x04\x1a\x56\x12\xae\xb0\x05\x1a\x56\x10\xd9\xf0\x06\x1a\x56\x10\xd9\xf0\x07\x42\x0b\x71"
)
ROOT = os.path.dirname(os.path.dirname(os.path.abspath(__file__)))
faults = []


def built():
    folder = os.path.join(ROOT, "crates", "cborc")
    made = subprocess.run(["rt", "run", "--", "--version"], cwd=folder, capture_output=True)
    if made.returncode != 0:
        sys.exit(made.stdout.decode() + made.stderr.decode())
    return os.path.join(folder, "out", "cborc")


PROGRAM = os.path.abspath(sys.argv[1]) if len(sys.argv) > 1 else built()
# It is removed as the script ends.
TEMPORARY = tempfile.TemporaryDirectory()
FOLDER = TEMPORARY.name


def run(words, given=b"", **more):
    usual = {"stdout": subprocess.PIPE, "stderr": subprocess.PIPE, "cwd": FOLDER}
    return subprocess.run([PROGRAM, *words], input=given, **usual | more)


def expect(name, ended, status, out=b"", err=b""):
    found = (ended.returncode, ended.stdout, ended.stderr)
    if found != (status, out, err):
        faults.append(f"{name}: wanted {(status, out, err)}, found {found}")


def write(name, data):
    path = os.path.join(FOLDER, name)
    with open(path, "wb") as file:
        file.write(data)
    return path


def limited(kib):
    """A limit on the memory of a run."""
    return lambda: resource.setrlimit(resource.RLIMIT_AS, (kib * 1024, kib * 1024))


def low(kib):
    """A limit on the stack of a run."""
    return lambda: resource.setrlimit(resource.RLIMIT_STACK, (kib * 1024, kib * 1024))


def short(size):
    """A limit on the bytes of each file that a run writes."""
    return lambda: resource.setrlimit(resource.RLIMIT_FSIZE, (size, size))


class Place:
    """A folder for the runs of one test."""

    def __init__(self, folder):
        self.folder = folder

    def path(self, name):
        return os.path.join(self.folder, name)

    def clear(self):
        for name in os.listdir(self.folder):
            os.remove(self.path(name))

    def put(self, name, content, holes=0):
        """Writes a file, followed by this many zeros, which use no disk."""
        with open(self.path(name), "wb") as file:
            file.write(content)
            file.truncate(len(content) + holes)

    def get(self, name):
        if not os.path.exists(self.path(name)):
            return None
        with open(self.path(name), "rb") as file:
            return file.read()

    def remove(self, name):
        if os.path.exists(self.path(name)):
            os.remove(self.path(name))

    def wide(self, name, size):
        """Writes a byte string of this many zeros."""
        self.put(name, b"\x5a" + size.to_bytes(4, "big"), size)

    def run(self, words, **more):
        return run(words, cwd=self.folder, **more)

    def keeps(self, name, out, files):
        """Expects OUT unchanged, and no other files than these."""
        if self.get(out) != BEFORE:
            faults.append(f"{name}: OUT is not as it was")
        if sorted(os.listdir(self.folder)) != sorted(files):
            faults.append(f"{name}: files are {sorted(os.listdir(self.folder))}, and not {sorted(files)}")


def end(name):
    """Prints what was wrong, and ends with status 1 if anything was."""
    for fault in faults:
        print(f"{name}:", fault)
    if faults:
        sys.exit(1)
    print(f"{name}: as its words say")
