/* The module naltvigo._native. */
#include "native.h"

#include <string.h>

#define CALL(name) \
    { #name, (PyCFunction)(void (*)(void))call_##name, METH_FASTCALL | METH_KEYWORDS, name##_doc }

static PyMethodDef methods[] = {
    CALL(canonicalise), CALL(check),         CALL(check_canonical), CALL(is_canonical),       CALL(same),
    CALL(diagnostic),   CALL(items),         CALL(item_ends),       CALL(canonicalise_items), CALL(dumps),
    CALL(loads),        CALL(start_machine), CALL(refusal),         {NULL, NULL, 0, NULL}};

static PyObject *from(const char *module, const char *name) {
    PyObject *imported = PyImport_ImportModule(module);
    PyObject *found = imported ? PyObject_GetAttrString(imported, name) : NULL;
    Py_XDECREF(imported);
    return found;
}

static int take_names(struct state *state) {
    static const char *const names[OPTION_COUNT] = {
        [ORDER] = "order",         [KEYS] = "keys",       [DEPTH] = "depth",    [MAX_BYTES] = "max_bytes",
        [CANONICAL] = "canonical", [OFFSETS] = "offsets", [DEFAULT] = "default",
        [TAG_HOOK] = "tag_hook",   [MAP_HOOK] = "map_hook"};
    for (int i = 0; i < OPTION_COUNT; i++)
        if (!(state->option_names[i] = PyUnicode_InternFromString(names[i]))) return -1;
    return 0;
}

static int make_simples(struct state *state) {
    for (unsigned i = 0; i < 256; i++) {
        if (is_no_simple(i)) continue;
        if (!(state->simples[i] = new_simple(state->simple, i))) return -1;
    }
    return 0;
}

static PyTypeObject *make_type(PyObject *module, PyType_Spec *spec) {
    return (PyTypeObject *)PyType_FromModuleAndSpec(module, spec, NULL);
}

/* `case Tag(number, content)` and `case Simple(number)` of a match statement. It steals the reference. */
static int set_match_arguments(PyTypeObject *type, PyObject *names) {
    const int status = names ? PyObject_SetAttrString((PyObject *)type, "__match_args__", names) : -1;
    Py_XDECREF(names);
    return status;
}

static int add(PyObject *module, const char *name, PyObject *value) {
    if (!value) return -1;
    const int status = PyModule_AddObjectRef(module, name, value);
    Py_DECREF(value);
    return status;
}

static int add_names(PyObject *module, const struct state *state) {
    const uint32_t version = naltvigo_version_raw();
    return add(module, "Tag", Py_NewRef((PyObject *)state->tag)) ||
           add(module, "Simple", Py_NewRef((PyObject *)state->simple)) ||
           add(module, "FrozenList", Py_NewRef((PyObject *)state->frozen_list)) ||
           add(module, "FrozenDict", Py_NewRef((PyObject *)state->frozen_dict)) ||
           add(module, "Machine", Py_NewRef((PyObject *)state->machine)) ||
           add(module, "Checker", Py_NewRef((PyObject *)state->checker)) ||
           PyModule_AddIntConstant(module, "OK", NALTVIGO_OK) ||
           PyModule_AddIntConstant(module, "EVENT", NALTVIGO_EVENT) ||
           PyModule_AddIntConstant(module, "MORE", NALTVIGO_MORE) ||
           PyModule_AddIntConstant(module, "TRUNCATED", NALTVIGO_TRUNCATED) ||
           PyModule_AddIntConstant(module, "TRAILING", NALTVIGO_TRAILING) ||
           add(module, "VERSION", PyUnicode_FromFormat("%u.%u.%u", version >> 16, version >> 8 & 255, version & 255));
}

static int execute(PyObject *module) {
    struct state *state = PyModule_GetState(module);
    const int is_made = (state->encoded = from("naltvigo._values", "Encoded")) &&
                        (state->undefined = from("naltvigo._values", "undefined")) &&
                        (state->refused = from("naltvigo._refused", "Refused")) &&
                        (state->array = from("array", "array")) && (state->tag = make_type(module, &tag_spec)) &&
                        (state->simple = make_type(module, &simple_spec)) &&
                        (state->frozen_list = make_type(module, &frozen_list_spec)) &&
                        (state->frozen_dict = make_type(module, &frozen_dict_spec)) &&
                        (state->items = make_type(module, &items_spec)) &&
                        (state->machine = make_type(module, &machine_spec)) &&
                        (state->checker = make_type(module, &checker_spec));
    if (!is_made || take_names(state) || make_simples(state) || add_names(module, state)) return -1;
    return set_match_arguments(state->tag, Py_BuildValue("(ss)", "number", "content")) ||
                   set_match_arguments(state->simple, Py_BuildValue("(s)", "number"))
               ? -1
               : 0;
}

/* What the module keeps, each once. The functions return what `visit` does, as Py_VISIT does. */
static PyObject **kept(struct state *state, int i) {
    PyObject **const objects[] = {(PyObject **)&state->tag,
                                  (PyObject **)&state->simple,
                                  (PyObject **)&state->frozen_list,
                                  (PyObject **)&state->frozen_dict,
                                  (PyObject **)&state->items,
                                  (PyObject **)&state->machine,
                                  (PyObject **)&state->checker,
                                  &state->encoded,
                                  &state->undefined,
                                  &state->refused,
                                  &state->array};
    const int single = sizeof objects / sizeof *objects;
    if (i < single) return objects[i];
    if (i < single + OPTION_COUNT) return &state->option_names[i - single];
    return i < single + OPTION_COUNT + 256 ? &state->simples[i - single - OPTION_COUNT] : NULL;
}

static int traverse(PyObject *module, visitproc visit, void *arg) {
    PyObject **object;
    for (int i = 0; (object = kept(PyModule_GetState(module), i)); i++) Py_VISIT(*object);
    return 0;
}

static int clear(PyObject *module) {
    PyObject **object;
    for (int i = 0; (object = kept(PyModule_GetState(module), i)); i++) Py_CLEAR(*object);
    return 0;
}

static void free_module(void *module) { clear(module); }

/* With CPython 3.12 a module says whether several interpreters may have it: these may, as long as they share one lock
 * (Py_mod_multiple_interpreters and Py_MOD_MULTIPLE_INTERPRETERS_SUPPORTED, which the headers of 3.11 do not have). */
#define MULTIPLE_INTERPRETERS 3
#define SUPPORTED ((void *)1)

static PyModuleDef_Slot slots[] = {{Py_mod_exec, execute}, {MULTIPLE_INTERPRETERS, SUPPORTED}, {0, NULL}};
static PyModuleDef_Slot slots_of_3_11[] = {{Py_mod_exec, execute}, {0, NULL}};
static struct PyModuleDef definition = {PyModuleDef_HEAD_INIT,
                                        "naltvigo._native",
                                        NULL,
                                        sizeof(struct state),
                                        methods,
                                        slots,
                                        traverse,
                                        clear,
                                        free_module};

PyMODINIT_FUNC PyInit__native(void) {
    if (Py_Version < 0x030C0000) definition.m_slots = slots_of_3_11;
    return PyModuleDef_Init(&definition);
}
