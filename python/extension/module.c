/* The module: linear_sum_assignment, and what the package gives it. */
#include <math.h>
#include <string.h>
#include "extension.h"

/* ---- linear_sum_assignment ---- */

/* The answer by the call for whole numbers; NULL where it has none. `copy` has room for the costs, if they are copied. */
static PyObject *assigned_whole(State *state, const Matrix *matrix, int maximize, const int64_t *costs, const Room *room) {
    struct info info;
    if (!costs || solve_whole(state, matrix, maximize, costs, room, &info) != BEST) return NULL;
    return rows_and_columns(state, matrix, room);
}

/* The answer for doubles. Whole numbers among them go by the call for these. */
static PyObject *assigned_doubles(State *state, const Matrix *matrix, int maximize, const Room *room) {
    const size_t count = (size_t)matrix->n * (size_t)matrix->m;
    const double *costs = costs_of(state, matrix, room);
    uint32_t by_margin;
    if (!costs) return NULL;
    if (count >= FEW_WHOLE && costs[0] == floor(costs[0]) && fabs(costs[0]) <= MOST_DOUBLE) {
        int64_t *whole = PyMem_Malloc(count * sizeof *whole);
        PyObject *answer = whole && as_whole(costs, count, whole) ? assigned_whole(state, matrix, maximize, whole, room) : NULL;
        PyMem_Free(whole);
        if (answer || PyErr_Occurred()) return answer;
    }
    const int32_t code = most_arc_scans(matrix) >= LONGEST ? solve_rounded(state, matrix, maximize, costs, room)
        : solve(state, matrix, maximize, costs, room, &by_margin);
    return code == BEST ? rows_and_columns(state, matrix, room) : NULL;
}

/* What a call is asked in addition to its costs. `limit` is what it costs to leave a row and a column out, or NaN. */
struct words {
    int maximize;
    double limit, end;
};

/* The answer for a matrix that was read. */
static PyObject *assigned_matrix(State *state, const Matrix *matrix, const struct words *words, const Room *room) {
    PyObject *answer = NULL;
    if (words->limit == words->limit) return assigned_worthy(state, matrix, words->maximize, words->limit, room);
    /* The room of the copied costs serves either kind. */
    if (has_whole_kind(matrix) && matrix->n * matrix->m >= FEW_WHOLE)
        answer = assigned_whole(state, matrix, words->maximize, whole_costs_of(matrix, (int64_t *)room->costs), room);
    return answer || PyErr_Occurred() ? answer : assigned_doubles(state, matrix, words->maximize, room);
}

/* The answer; NULL without an exception where the longer way is to be taken. */
static PyObject *assigned(State *state, PyObject *costs, const struct words *words) {
    double spare[SPARE];
    Matrix matrix;
    Room room;
    PyObject *answer = NULL;
    if (!look_at(state, costs, &matrix, 1)) return NULL;
    matrix.forbids = words->maximize ? -INFINITY : INFINITY;
    matrix.end = words->end;
    if (take(&room, &matrix, !is_plain(&matrix), spare)) {
        answer = assigned_matrix(state, &matrix, words, &room);
        PyMem_Free(room.taken);
    }
    let_go(&matrix);
    if (answer && words->end < INFINITY && is_over(words->end)) Py_CLEAR(answer);
    return answer;
}

/* A number that is a double, or None; 0 where it is neither. */
static int of_number(PyObject *value, double *to) {
    if (value == Py_None) return 1;
    if (PyLong_CheckExact(value)) {
        int beyond;
        const long long number = PyLong_AsLongLongAndOverflow(value, &beyond);
        *to = (double)number;
        return !beyond && number <= WHOLE && number >= -WHOLE;
    }
    if (!PyFloat_CheckExact(value)) return 0;
    *to = PyFloat_AsDouble(value);
    return fabs(*to) <= MOST_DOUBLE;
}

/* One argument by its name; 0 where it isn't for this way. */
static int read_word(const char *name, PyObject *value, struct words *words) {
    double timeout = INFINITY;
    if (!strcmp(name, "maximize")) {
        words->maximize = value == Py_True;
        return value == Py_True || value == Py_False;
    }
    if (!strcmp(name, "unmatched_cost")) return of_number(value, &words->limit);
    if (strcmp(name, "timeout") || !of_number(value, &timeout) || !(timeout > 0)) return 0;
    words->end = timeout < INFINITY ? now() + timeout : INFINITY;
    return 1;
}

/* Whether the arguments are a matrix and words that this knows. */
static int words_of(PyObject *const *arguments, Py_ssize_t count, PyObject *names, struct words *words) {
    static const char *known[] = {"maximize", "unmatched_cost", "timeout"};
    const Py_ssize_t named = names ? PyTuple_Size(names) : 0;
    if (count < 1 || count > 2) return 0;
    if (count == 2 && !read_word("maximize", arguments[1], words)) return 0;
    for (Py_ssize_t k = 0; k < named; k++) {
        const char *name = NULL;
        for (int word = count == 2; word < 3; word++)
            if (!PyUnicode_CompareWithASCIIString(PyTuple_GetItem(names, k), known[word])) name = known[word];
        if (!name || !read_word(name, arguments[count + k], words)) return 0;
    }
    return 1;
}

/* The named arguments of a call as a dict. */
static PyObject *named_of(PyObject *const *values, PyObject *names) {
    PyObject *held = PyDict_New();
    for (Py_ssize_t k = 0; held && k < PyTuple_Size(names); k++)
        if (PyDict_SetItem(held, PyTuple_GetItem(names, k), values[k])) {
            Py_DECREF(held);
            return NULL;
        }
    return held;
}

/* The arguments without a name as a tuple. */
static PyObject *plain_of(PyObject *const *values, Py_ssize_t count) {
    PyObject *held = PyTuple_New(count);
    for (Py_ssize_t k = 0; held && k < count; k++) {
        Py_INCREF(values[k]);
        PyTuple_SetItem(held, k, values[k]);
    }
    return held;
}

/* Python's call, with the same arguments. */
static PyObject *longer(const State *state, PyObject *const *arguments, Py_ssize_t count, PyObject *names) {
    if (!state->longer) return PyErr_Format(PyExc_RuntimeError, "the interpreter ends");
    PyObject *named = names ? named_of(arguments + count, names) : NULL;
    PyObject *plain = names && !named ? NULL : plain_of(arguments, count);
    PyObject *answer = plain ? PyObject_Call(state->longer, plain, named) : NULL;
    Py_XDECREF(plain);
    Py_XDECREF(named);
    return answer;
}

static PyObject *linear_sum_assignment(PyObject *module, PyObject *const *arguments, Py_ssize_t count, PyObject *names) {
    State *state = PyModule_GetState(module);
    struct words words = {0, NAN, INFINITY};
    if (words_of(arguments, count, names, &words) && is_ready(state)) {
        PyObject *answer = assigned(state, arguments[0], &words);
        if (answer || PyErr_Occurred()) return answer;
    }
    return longer(state, arguments, count, names);
}

/* ---- What the package gives ---- */

/* attach(addresses): those of nushbaret_doubles, nushbaret_check_doubles, nushbaret_dense_from, nushbaret_sparse_from, nushbaret_check,
   nushbaret_ranked, nushbaret_unique, nushbaret_next and nushbaret_bottleneck. */
static PyObject *attach(PyObject *module, PyObject *arguments) {
    State *state = PyModule_GetState(module);
    unsigned long long doubles, check_doubles, dense, sparse, check, ranked, unique, next, bottleneck;
    if (!PyArg_ParseTuple(arguments, "KKKKKKKKK", &doubles, &check_doubles, &dense, &sparse, &check, &ranked, &unique, &next, &bottleneck))
        return NULL;
    state->bottleneck = (bottleneck_call *)(uintptr_t)bottleneck;
    state->next = (next_call *)(uintptr_t)next;
    state->unique = (unique_call *)(uintptr_t)unique;
    state->ranked = (ranked_call *)(uintptr_t)ranked;
    state->check = (check_call *)(uintptr_t)check;
    state->sparse_from = (sparse_from_call *)(uintptr_t)sparse;
    state->dense_from = (dense_from_call *)(uintptr_t)dense;
    state->check_doubles = (check_doubles_call *)(uintptr_t)check_doubles;
    state->doubles = (doubles_call *)(uintptr_t)doubles;
    Py_RETURN_NONE;
}

/* attach_numpy(capsule, float64): NumPy's table, and its kind of float. Whether its arrays are those that this knows. */
static PyObject *attach_numpy(PyObject *module, PyObject *arguments) {
    State *state = PyModule_GetState(module);
    PyObject *capsule, *kind;
    if (!PyArg_ParseTuple(arguments, "OO!", &capsule, &PyType_Type, &kind)) return NULL;
    void **table = PyCapsule_GetPointer(capsule, NULL);
    if (!table) return NULL;
    const unsigned version = ((unsigned (*)(void))table[OF_VERSION])();
    if (version != VERSION_1 && version != VERSION_2) Py_RETURN_FALSE;
    PyTypeObject *before = state->array, *kind_before = state->float64;
    state->make = (new_array *)table[OF_NEW];
    Py_INCREF(kind);
    state->float64 = (PyTypeObject *)kind;
    state->array = (PyTypeObject *)table[OF_ARRAY];
    Py_INCREF(state->array);
    Py_XDECREF(before);
    Py_XDECREF(kind_before);
    Py_RETURN_TRUE;
}

/* A copy of a text. */
static char *copy_of(const char *text, Py_ssize_t length) {
    char *copy = PyMem_Malloc((size_t)length + 1);
    if (copy) memcpy(copy, text, (size_t)length + 1);
    return copy;
}

/* asks(connect): what is called where the library or NumPy is missing. */
static PyObject *asks(PyObject *module, PyObject *connect) {
    State *state = PyModule_GetState(module);
    PyObject *before = state->connect;
    Py_INCREF(connect);
    state->connect = connect;
    Py_XDECREF(before);
    Py_RETURN_NONE;
}

/* function(longer, text, module): linear_sum_assignment with this docstring, as a function of a module of this name; made once. */
static PyObject *function(PyObject *module, PyObject *arguments) {
    State *state = PyModule_GetState(module);
    PyObject *call, *name;
    const char *text;
    Py_ssize_t length;
    if (!PyArg_ParseTuple(arguments, "Os#U", &call, &text, &length, &name)) return NULL;
    if (state->longer) return PyErr_Format(PyExc_RuntimeError, "the function was made before");
    state->text = copy_of(text, length);
    if (!state->text) return PyErr_NoMemory();
    Py_INCREF(call);
    state->longer = call;
    state->method.ml_name = "linear_sum_assignment";
    state->method.ml_meth = (PyCFunction)(void (*)(void))linear_sum_assignment;
    state->method.ml_flags = METH_FASTCALL | METH_KEYWORDS;
    state->method.ml_doc = state->text;
    return PyCFunction_NewEx(&state->method, module, name);
}

/* The names that a frame's parts have. */
static int fill(PyObject *module) {
    State *state = PyModule_GetState(module);
    state->manager = PyUnicode_InternFromString("_mgr");
    state->blocks = PyUnicode_InternFromString("blocks");
    state->values = PyUnicode_InternFromString("values");
    state->places = PyUnicode_InternFromString("mgr_locs");
    state->as_array = PyUnicode_InternFromString("as_array");
    return state->manager && state->blocks && state->values && state->places && state->as_array ? 0 : -1;
}

static int visit_all(PyObject *module, visitproc visit, void *arg) {
    State *state = PyModule_GetState(module);
    if (!state) return 0;
    Py_VISIT(state->longer);
    Py_VISIT(state->connect);
    Py_VISIT(state->array);
    Py_VISIT(state->float64);
    return 0;
}

static int clear_all(PyObject *module) {
    State *state = PyModule_GetState(module);
    if (!state) return 0;
    Py_CLEAR(state->longer);
    Py_CLEAR(state->connect);
    Py_CLEAR(state->array);
    Py_CLEAR(state->float64);
    Py_CLEAR(state->manager);
    Py_CLEAR(state->blocks);
    Py_CLEAR(state->values);
    Py_CLEAR(state->places);
    Py_CLEAR(state->as_array);
    return 0;
}

static void free_all(void *module) {
    State *state = PyModule_GetState((PyObject *)module);
    clear_all((PyObject *)module);
    if (state) PyMem_Free(state->text);
}

static PyMethodDef methods[] = {
    {"attach", attach, METH_VARARGS, NULL},
    {"attach_numpy", attach_numpy, METH_VARARGS, NULL},
    {"asks", asks, METH_O, NULL},
    {"function", function, METH_VARARGS, NULL},
    {"found", found, METH_VARARGS, NULL},
    {"batch", batch, METH_VARARGS, NULL},
    {"listed", listed, METH_VARARGS, NULL},
    {"printed", printed, METH_VARARGS, NULL},
    {NULL, NULL, 0, NULL},
};

static PyModuleDef_Slot slots[] = {{Py_mod_exec, fill}, {0, NULL}};

static struct PyModuleDef definition = {
    PyModuleDef_HEAD_INIT, "_extension", "The short way to the library: see python/extension/extension.h.", sizeof(State), methods, slots,
    visit_all, clear_all, free_all,
};

PyMODINIT_FUNC PyInit__extension(void) {
    return PyModuleDef_Init(&definition);
}
