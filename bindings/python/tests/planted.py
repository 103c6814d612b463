"""Plants bugs in the extension's C, one at a time, and shows that a test fails for each.

    planted.py DIST [PART PARTS]

DIST is what scripts/build_c.sh makes. The bugs are in PARTS parts, of which it tries one: run with other parts in turn, it
tries all. Without these it tries all at once. It prints the number of bugs, and fails if one is not found.
"""

import os
import resource
import shutil
import subprocess
import sys
import sysconfig
import tempfile
import time
from pathlib import Path

HERE = Path(__file__).resolve().parent
PACKAGE = HERE.parent
NATIVE = PACKAGE / "src" / "native"
MEMORY = 4 << 30

# The file, the tests that find the bug, a text that is in the file once, and its replacement.
BUGS = [
    ("machine.c", "thresholds", "self->machine.consumed - (uint64_t)at", "self->machine.consumed"),
    ("machine.c", "thresholds", "(offset - begins)", "(offset % 4096 - begins)"),
    ("machine.c", "thresholds", "is_piece ? (Py_ssize_t)number : 0", "is_piece ? (Py_ssize_t)(number & 4095) : 0"),
    ("checker.c", "checker", "self->consumed += used;", "self->consumed = used;"),
    ("checker.c", "checker", "self->is_complete = status == NALTVIGO_OK;", "self->is_complete = status != NALTVIGO_MORE;"),
    ("checker.c", "memory", "    rest.bytes -= self->consumed;", "    "),
    ("checker.c", "checker", "    self->is_busy = 1;\n", ""),
    ("checker.c", "checker", "release_lock(input->length)", "NULL"),
    ("checker.c", "memory", "    if (self->checker.memory) naltvigo_checker_free_raw(&self->checker);\n", ""),
    ("checker.c", "checker", "naltvigo_checker_restart_raw(self->options.order, ", "naltvigo_checker_restart_raw(NALTVIGO_BYTEWISE, "),
    ("options.c", "checker", "    if (named && !PyArg_ValidateKeywordArguments(named)) return -1;\n", ""),
    ("sequence.c", "thresholds", "limit < LONG_INPUT ? limit : LONG_INPUT", "LONG_INPUT"),
    ("sequence.c", "thresholds", "cursor->count++;\n    if (status", "cursor->count = (cursor->count + 1) & 0xffff;\n    if (status"),
    ("sequence.c", "thresholds", "cursor->at += taken;", "cursor->at = (cursor->at + taken) & 0xffffff;"),
    ("sequence.c", "thresholds", "out ? out->length : cursor->at", "out ? out->length & 0xffffff : cursor->at"),
    ("sequence.c", "sequences", "while (status == NALTVIGO_TOO_SMALL)", "if (status == NALTVIGO_TOO_SMALL)"),
    ("sequence.c", "memory", "    Py_VISIT(((struct items *)self)->cursor.input.view.obj);\n", ""),
    ("sequence.c", "sequences", "if (self->is_reading) {", "if (0) {"),
    ("calls.c", "memory", "    close_input(&right);\n", ""),
    ("calls.c", "values", "side == NALTVIGO_LEFT ? &left : &right;", "&left;"),
    ("calls.c", "naltvigo", "status == NALTVIGO_OK && needed == space", "status == NALTVIGO_OK"),
    ("key_texts.c", "memory", "        Py_XDECREF(kept->text);\n", ""),
    ("key_texts.c", "values", "kept->length == length && memcmp(kept->bytes, bytes, length) == 0", "kept->length == length"),
    ("tag.c", "memory", "    Py_VISIT(((struct tag *)self)->content);\n", ""),
    ("tag.c", "frozen", "left->held.owner || right->held.owner", "left->held.owner && right->held.owner"),
    ("frozen.c", "memory", "    Py_VISIT(((struct frozen *)self)->members);\n", ""),
    ("frozen.c", "frozen", "sum += mix(mix(MAP, (uint64_t)of_key), (uint64_t)of_value)", "sum = mix(mix(sum, (uint64_t)of_key), (uint64_t)of_value)"),
    ("frozen.c", "frozen", "    if (Py_EnterRecursiveCall(\" in the hash of a FrozenDict\")) return -1;\n", "    if (0) return -1;\n"),
    ("held.c", "frozen", "held->owner && held->order == order", "held->owner"),
    ("held.c", "frozen", " && memcmp(left->bytes, right->bytes, left->length) == 0", ""),
    ("held.c", "frozen", "!PyErr_ExceptionMatches(PyExc_OverflowError)", "1"),
    ("decode.c", "stalls", "if (level.is_in_key && !decoder->key_bytes && copy_key(decoder, item)) return -1;", ""),
    ("decode.c", "frozen", "decoder->key_start + (item->offset - decoder->key_offset)", "decoder->key_start"),
    ("decode.c", "values", "    decoder->fault = top.item;\n", ""),
    ("errors.c", "values", "refusal->offset, text, space, &needed", "0, text, space, &needed"),
    ("errors.c", "values", "rest ? PyUnicode_Concat(outer, rest) : Py_NewRef(outer)", "Py_NewRef(outer)"),
    ("errors.c", "values", "if (!(text = PyMem_Malloc(space = needed)))", "if (!(text = PyMem_Malloc(needed)))"),
    ("errors.c", "values", '    if (is_noted) add_note("at %U", path);\n', ""),
    ("decode.c", "hostile", "(uint64_t)PyDict_Size(top.into) != top.at", "0"),
    ("decode.c", "hostile", "item->number > MANY_PAIRS", "item->number > (1 << 20)"),
    ("decode.c", "hostile", "    wake_collector(&decoder);\n", ""),
    ("decode.c", "files", "    if (was_collecting) rest_collector(decoder);\n", "    if (!was_collecting) rest_collector(decoder);\n"),
    ("collisions.c", "hostile", "MOST_MEETINGS * (uint64_t)collisions->used", "MOST_MEETINGS * (uint64_t)collisions->table"),
    ("collisions.c", "hostile", "collisions->table = table, collisions->meetings = 0;", "collisions->table = table;"),
    ("collisions.c", "hostile", "collisions->meetings++;", "collisions->meetings = 0;"),
    ("loads.c", "memory", "least(length, with->bytes) / 4", "length / 4"),
    ("loads.c", "values", "least(input->length, options->bytes));\n    if (!copy)", "least(input->length, options->bytes));\n    if (0)"),
    ("containers.c", "hostile", "is_there == (frame->at == frame->count)", "!is_there && frame->at != frame->count"),
    ("containers.c", "hostile", "frame->kind == A_LIST && PyList_Size(frame->of) != frame->count", "0"),
    ("containers.c", "thresholds", "if (is_first) memcpy(frames, encoder->first_frames, sizeof encoder->first_frames);", ""),
    ("options.c", "thresholds", "options->fallback = value == Py_None ? NULL : value", "options->fallback = value"),
    ("options.c", "naltvigo", " || PyBool_Check(value)", ""),
    ("output.c", "thresholds", "of.bytes, of.length, with->keys,", "of.bytes, of.length, NALTVIGO_ANY_KEYS,"),
    ("output.c", "values", "limit - encoder->length) fits = (size_t)(limit - encoder->length) + 1", "limit - encoder->length) fits = (size_t)(limit - encoder->length)"),
    ("output.c", "values", "n < 0 ? put_head(encoder, NEGATIVE, ~(uint64_t)n)", "n < 0 ? put_head(encoder, NEGATIVE, (uint64_t)-n)"),
    ("encode.c", "values", "PyType_IsSubtype(Py_TYPE(value), (PyTypeObject *)state->encoded)", "(PyObject *)Py_TYPE(value) == state->encoded"),
    ("encode.c", "values", "    encoder->is_in_default = 1;\n", ""),
    ("input.c", "memory", "reading == ITEM ? (size_t)options->bytes + 1 : SIZE_MAX", "SIZE_MAX"),
    ("input.c", "memory", "reading == ITEM ? (size_t)options->bytes + 1 : SIZE_MAX", "(size_t)options->bytes"),
    ("input.c", "memory", "PyBytes_Check(exporter) ? 1", "view->readonly ? 1"),
    ("input.c", "memory", "    found = whole.readonly;\n", ""),
    ("input.c", "memory", "(Py_ssize_t)(most / row + 1)", "(Py_ssize_t)(most / row)"),
    ("input.c", "memory", "if (most / row < (size_t)shape[0]) ", ""),
]


def limit_memory():
    """A limit on the memory of a run: a bug that takes memory without an end is found too."""
    resource.setrlimit(resource.RLIMIT_AS, (MEMORY, MEMORY))


class Extension:
    """The extension in a folder, of which one file at a time is compiled anew."""

    def __init__(self, folder, dist):
        self.folder, self.dist = folder, dist
        # how many seconds each test may take with a bug
        self.limits = {}
        self.compiler = [*os.environ.get("CC", "cc").split(), "-std=c11", "-O1", "-w", "-fPIC", "-fvisibility=hidden"]
        self.compiler += ["-isystem", sysconfig.get_path("include"), "-isystem", str(dist / "include"), f"-I{NATIVE}"]
        shutil.copytree(PACKAGE / "src" / "naltvigo", folder / "site" / "naltvigo")
        for path in NATIVE.glob("*.c"):
            self.compile(path)

    def compile(self, path):
        ran = subprocess.run([*self.compiler, "-c", path, "-o", self.folder / f"{path.stem}.o"], capture_output=True, text=True)
        if ran.returncode != 0:
            sys.exit(f"{path.name} does not compile: {ran.stderr}")

    def link(self):
        objects = sorted(self.folder.glob("*.o"))
        out = self.folder / "site" / "naltvigo" / "_native.abi3.so"
        words = [self.compiler[0], "-shared", *objects, self.dist / "lib" / "libnaltvigo.a", "-Wl,--exclude-libs,ALL", "-o", out]
        subprocess.run(words, check=True)

    def is_found(self, tests):
        """The output of one of these tests that fails, or takes a few times as long as without a bug; else nothing."""
        own = os.environ | {"PYTHONPATH": str(self.folder / "site"), "PYTHONDONTWRITEBYTECODE": "1"}
        words = [sys.executable, "-m", "unittest", "discover", "-f", "-s", HERE, "-p", f"test_{tests}.py"]
        begin = time.monotonic()
        try:
            limit = self.limits.get(tests, 3600)
            more = dict(timeout=limit, cwd=self.folder, preexec_fn=limit_memory)
            ran = subprocess.run(words, capture_output=True, text=True, errors="replace", env=own, **more)
        except subprocess.TimeoutExpired:
            return "it took too long"
        self.limits.setdefault(tests, 30 + 3 * (time.monotonic() - begin))
        return ran.stderr if ran.returncode else ""

    def is_found_with(self, name, tests, before, after):
        text = (NATIVE / name).read_text(encoding="utf-8")
        if text.count(before) != 1:
            sys.exit(f"{name} has {text.count(before)} times {before!r}")
        changed = self.folder / name
        changed.write_text(text.replace(before, after), encoding="utf-8")
        self.compile(changed)
        self.link()
        found = self.is_found(tests)
        changed.unlink()
        self.compile(NATIVE / name)
        return found


def main():
    dist = Path(sys.argv[1]).resolve()
    part, parts = map(int, sys.argv[2:4] or (0, 1))
    bugs = BUGS[part % parts :: parts]
    missed = 0
    with tempfile.TemporaryDirectory() as name:
        extension = Extension(Path(name), dist)
        extension.link()
        for tests in sorted({bug[1] for bug in bugs}):
            if found := extension.is_found(tests):
                sys.exit(f"test_{tests}.py fails without a bug: {found}")
        for bug in bugs:
            if not extension.is_found_with(*bug):
                print(f"not found: {bug[0]}: {bug[2]!r} becomes {bug[3]!r}")
                missed += 1
    print(f"{len(bugs)} planted bugs, {missed} not found")
    return 1 if missed else 0


if __name__ == "__main__":
    sys.exit(main())
