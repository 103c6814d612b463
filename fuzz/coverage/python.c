/* python.c: what libFuzzer runs on the extension for Python (scripts/fuzz_bindings.sh).
 *
 * The extension is linked in, so that its coverage is seen; the modules in Python come from NALTVIGO_SITE. The first two bytes
 * pick a statement and its options, the rest is the input. A statement that raises anything but a refusal or the error for two
 * keys that are equal in Python alone, or whose assertion fails, ends the run.
 */
#define PY_SSIZE_T_CLEAN
#include <Python.h>
#include <stdint.h>
#include <stdio.h>
#include <stdlib.h>

PyMODINIT_FUNC PyInit__native(void);

static const char program[] =
    "import sys, os, importlib.machinery, importlib.util\n"
    "sys.path.insert(0, os.environ['NALTVIGO_SITE'])\n"
    "class Finder:\n"
    "    @staticmethod\n"
    "    def find_spec(name, path=None, target=None):\n"
    "        return importlib.util.spec_from_loader(name, importlib.machinery.BuiltinImporter) if name == 'naltvigo._native' else None\n"
    "sys.meta_path.insert(0, Finder)\n"
    "import naltvigo as n\n"
    "def reading(data, **options):\n"
    "    value = n.loads(data, **options)\n"
    "    order = {name: it for name, it in options.items() if name != 'canonical'}\n"
    "    assert n.dumps(value, **order) == n.canonicalise(data, **order), 'dumps of loads'\n"
    "    # lists of Python's own are compared by recursion\n"
    "    assert options['depth'] > 64 or n.loads(n.dumps(value, **order), **options) == value, 'loads of dumps'\n"
    "def strictly(data, **options):\n"
    "    is_own = n.is_canonical(data, **options)\n"
    "    assert is_own == (n.canonicalise(data, **options) == data), 'is_canonical'\n"
    "    n.loads(data, canonical=True, **options)\n"
    "    assert is_own, 'loads of what is not canonical'\n"
    "def hooked(data, **options):\n"
    "    n.loads(data, tag_hook=lambda tag: (tag.number, tag.content), map_hook=lambda pairs: pairs, **options)\n"
    "def split(data, **options):\n"
    "    found = list(n.items(data, **options))\n"
    "    assert b''.join(found) == data and list(n.item_ends(data, **options))[-1:] == [len(data)][:len(data)], 'items'\n"
    "    cut = [data[i : i + 7] for i in range(0, len(data), 7)]\n"
    "    assert list(n.items(cut, **options)) == found, 'items of parts'\n"
    "    own, ends = n.canonicalise_items(data, **options)\n"
    "    starts = [0, *ends]\n"
    "    assert [own[i:j] for i, j in zip(starts, ends)] == [n.canonicalise(it, **options) for it in found], 'canonicalise_items'\n"
    "def compared(data, **options):\n"
    "    at = data[0] if data else 0\n"
    "    del options['order']\n"
    "    left, right = data[1:1 + at], data[1 + at:]\n"
    "    assert n.same(left, right, **options) == (n.canonicalise(left, **options) == n.canonicalise(right, **options)), 'same'\n"
    "def shown(data, **options):\n"
    "    del options['order']\n"
    "    try:\n"
    "        n.diagnostic(memoryview(bytes(2 * len(data)))[::2] if not data else data, **options)\n"
    "    except n.Refused as refused:\n"
    "        str(refused), refused.path, refused.sentence, refused.advice\n"
    "def said(call, *words, **options):\n"
    "    try:\n"
    "        return call(*words, **options)\n"
    "    except n.Refused as refused:\n"
    "        return refused.reason, refused.offset, refused.consumed\n"
    "def parted(data, **options):\n"
    "    size = data[0] % 9 + 1 if data else 1\n"
    "    parts = [data[i : i + size] for i in range(0, len(data), size)]\n"
    "    wanted = said(n.check_canonical, data, **options)\n"
    "    assert said(n.check_stream, parts, **options) == (len(data) if wanted is None else wanted), 'check_stream'\n"
    "    checker = n.Checker(**options)\n"
    "    found = [said(checker.feed, part) for part in parts] and said(checker.end)\n"
    "    assert not parts or found == (checker.consumed if wanted is None or wanted[0] == 12 else wanted), 'Checker'\n"
    "    for event in n.events(parts, depth=options['depth'], max_bytes=options['max_bytes']):\n"
    "        repr(event)\n"
    "def placed(data, **options):\n"
    "    n.dumps([n.Encoded(data), {n.Encoded(data): 1}], **options)\n"
    "CALLS = [reading, strictly, hooked, split, compared, shown, parted, placed]\n"
    "def run(data):\n"
    "    if len(data) < 2: return\n"
    "    options = dict(order=('bytewise', 'length')[data[1] & 1], keys=('any', 'basic')[data[1] >> 1 & 1],\n"
    "                   depth=(64, 3, 1024, 0)[data[1] >> 2 & 3], max_bytes=(1 << 20, 40)[data[1] >> 4 & 1])\n"
    "    rest = data[2:]\n"
    "    if data[1] & 32: rest = bytearray(rest)\n"
    "    try:\n"
    "        CALLS[data[0] % len(CALLS)](bytes(rest) if data[0] % len(CALLS) in (3, 4, 6, 7) else rest, **options)\n"
    "    except n.Refused:\n"
    "        pass\n"
    "    except ValueError as error:\n"
    "        # documented of loads: {1: .., True: ..}\n"
    "        if 'two keys of a map are equal in Python' not in str(error): raise\n";

static PyObject *run;

static void begin(void) {
    if (PyImport_AppendInittab("naltvigo._native", PyInit__native)) abort();
    Py_InitializeEx(0);
    PyObject *names = PyModule_GetDict(PyImport_AddModule("__main__"));
    if (!PyRun_String(program, Py_file_input, names, names)) {
        PyErr_Print();
        abort();
    }
    run = PyDict_GetItemString(names, "run");
}

int LLVMFuzzerTestOneInput(const uint8_t *data, size_t size) {
    if (!run) begin();
    PyObject *found = PyObject_CallFunction(run, "y#", (const char *)data, (Py_ssize_t)size);
    if (!found) {
        PyErr_Print();
        abort();
    }
    Py_DECREF(found);
    return 0;
}
