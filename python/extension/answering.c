/* What the library found, as callers get it: rows and columns as arrays or lists, what a result is made of, and a batch. */
#include <string.h>
#include "extension.h"

/* ---- Pairs ---- */

/* Who has each object; 0 where nobody has it. */
static void find_owners(const Matrix *matrix, const Room *room) {
    memset(room->owners, 0, (size_t)matrix->m * sizeof(uint32_t));
    for (Py_ssize_t i = 0; i < matrix->n; i++) room->owners[room->objects[i] - 1] = (uint32_t)i + 1;
}

/* Rows and columns of a plan, rows rising. */
void pair_up(const Matrix *matrix, const Room *room) {
    if (matrix->turned) {
        find_owners(matrix, room);
        for (Py_ssize_t j = 0, k = 0; j < matrix->m; j++)
            if (room->owners[j]) {
                room->rows[k] = j;
                room->columns[k++] = (int64_t)room->owners[j] - 1;
            }
        return;
    }
    for (Py_ssize_t i = 0; i < matrix->n; i++) {
        room->rows[i] = i;
        room->columns[i] = (int64_t)room->objects[i] - 1;
    }
}

/* Numbers as a list. */
PyObject *as_list(const int64_t *numbers, Py_ssize_t count) {
    PyObject *list = PyList_New(count);
    for (Py_ssize_t k = 0; list && k < count; k++) {
        PyObject *number = PyLong_FromLongLong(numbers[k]);
        if (!number || PyList_SetItem(list, k, number)) {
            Py_DECREF(list);
            return NULL;
        }
    }
    return list;
}

/* Numbers as an array of intp. */
static PyObject *as_array(const State *state, const int64_t *numbers, Py_ssize_t count) {
    PyObject *array = state->make(state->array, 1, &count, LONGS, NULL, NULL, 0, 0, NULL);
    if (array) memcpy(((struct array *)array)->data, numbers, (size_t)count * sizeof *numbers);
    return array;
}

/* The numbers of a plan's rows or columns in the form that the costs have. */
PyObject *as_given(const State *state, const Matrix *matrix, const int64_t *numbers) {
    return matrix->gives_arrays ? as_array(state, numbers, matrix->n) : as_list(numbers, matrix->n);
}

/* Two objects as a pair; it takes both, and either may be NULL. */
PyObject *pair_of(PyObject *first, PyObject *second) {
    PyObject *pair = first && second ? PyTuple_New(2) : NULL;
    if (!pair) {
        Py_XDECREF(first);
        Py_XDECREF(second);
        return NULL;
    }
    PyTuple_SetItem(pair, 0, first);
    PyTuple_SetItem(pair, 1, second);
    return pair;
}

/* Rows and columns in the form that the costs have. */
PyObject *rows_and_columns(const State *state, const Matrix *matrix, const Room *room) {
    pair_up(matrix, room);
    return given_both(state, matrix, room);
}

PyObject *given_both(const State *state, const Matrix *matrix, const Room *room) {
    PyObject *rows = as_given(state, matrix, room->rows);
    return pair_of(rows, rows ? as_given(state, matrix, room->columns) : NULL);
}

/* ---- What a result is made of ---- */

/* The costs of the pairs of a plan, which are paired up: whole numbers, or doubles where `whole` is NULL. */
PyObject *paid(const Matrix *matrix, const double *costs, const int64_t *whole, const Room *room) {
    PyObject *list = PyList_New(matrix->n);
    for (Py_ssize_t k = 0; list && k < matrix->n; k++) {
        const int64_t person = matrix->turned ? room->columns[k] : room->rows[k], object = matrix->turned ? room->rows[k] : room->columns[k];
        const size_t place = (size_t)(person * matrix->m + object);
        PyObject *cost = whole ? PyLong_FromLongLong(whole[place]) : PyFloat_FromDouble(costs[place]);
        if (!cost || PyList_SetItem(list, k, cost)) {
            Py_DECREF(list);
            return NULL;
        }
    }
    return list;
}

/* Rows and columns; the costs paid, the objects, prices and total if there are any, and the places of whole numbers, else -1; and the first
   cost, the number of rows and that of columns. */
PyObject *found_of(const State *state, const Matrix *matrix, const Room *room, const double *costs, const int64_t *whole, int places,
    const struct info *info) {
    PyObject *pairs = rows_and_columns(state, matrix, room);
    if (!pairs) return NULL;
    PyObject *own = paid(matrix, costs, places < 0 ? NULL : whole, room);
    const char *objects = (const char *)room->objects, *prices = (const char *)room->prices;
    const Py_ssize_t n = 4 * matrix->n, m = 8 * matrix->m;
    PyObject *rest = !own ? NULL : info ? Py_BuildValue("(Oy#y#Li)", own, objects, n, prices, m, (long long)info->total, places)
        : Py_BuildValue("(Oy#OOi)", own, objects, n, Py_None, Py_None, places);
    Py_XDECREF(own);
    return pair_of(pairs, rest);
}

/* ---- A batch ---- */

/* Solves one matrix of a batch, and writes rows and columns of its plan; a first row of -1 where it found none. */
static void solve_one(const State *state, const Matrix *matrix, int maximize, const Room *room, int64_t *rows, int64_t *columns) {
    const size_t size = (size_t)matrix->n * sizeof *rows;
    uint32_t by_margin;
    const double *costs = costs_of(state, matrix, room);
    rows[0] = -1;
    if (!costs || search(state, matrix, maximize, costs, room, &by_margin) != BEST) return;
    pair_up(matrix, room);
    memcpy(rows, room->rows, size);
    memcpy(columns, room->columns, size);
}

/* Some matrices of a batch, one after the other, without the lock. A matrix that is copied may be so in its turn alone. */
static void solve_some(const State *state, Matrix matrix, Py_ssize_t step, Py_ssize_t count, int maximize, Room room, int64_t *rows,
    int64_t *columns) {
    PyThreadState *thread = PyEval_SaveThread();
    for (Py_ssize_t k = 0; k < count; k++) {
        solve_one(state, &matrix, maximize, &room, rows + k * matrix.n, columns + k * matrix.n);
        matrix.data += step;
    }
    PyEval_RestoreThread(thread);
}

/* All of them, a piece at a time, so that Ctrl-C ends it; 0 where something was raised. */
static int solve_all(const State *state, Matrix matrix, Py_ssize_t step, Py_ssize_t count, int maximize, const Room *room, int64_t *rows,
    int64_t *columns) {
    const Py_ssize_t piece = 1 + (Py_ssize_t)(LONG / (most_arc_scans(&matrix) + 256));
    for (Py_ssize_t k = 0; k < count; k += piece) {
        if (PyErr_CheckSignals()) return 0;
        solve_some(state, matrix, step, count - k < piece ? count - k : piece, maximize, *room, rows + k * matrix.n, columns + k * matrix.n);
        matrix.data += piece * step;
    }
    return 1;
}

/* Whether this is an array of intp, and of this shape, that may be written as it stands. */
static int is_own(const State *state, PyObject *made, Py_ssize_t count, Py_ssize_t n) {
    const struct array *array = (const struct array *)made;
    return Py_TYPE(made) == state->array && array->dimensions == 2 && array->kind->number == LONGS && array->shape[0] == count
        && array->shape[1] == n && array->steps[1] == 8 && (array->steps[0] == 8 * n || count == 1);
}

/* batch(costs, maximize, rows, columns): fills two arrays of intp of its caller's; a row of `rows` begins with -1 where a matrix is left to
   the longer way. None where all are. */
PyObject *batch(PyObject *module, PyObject *arguments) {
    State *state = PyModule_GetState(module);
    PyObject *costs, *rows, *columns;
    double spare[SPARE];
    int maximize;
    Matrix matrix;
    Room room;
    if (!PyArg_ParseTuple(arguments, "OpOO", &costs, &maximize, &rows, &columns)) return NULL;
    if (!is_ready(state) || !is_array(state, costs, 3)) Py_RETURN_NONE;
    const struct array *array = (const struct array *)costs;
    const Py_ssize_t count = array->shape[0];
    of_array(array, 1, &matrix);
    turn(&matrix, 1);
    if (count < 1 || matrix.n < 1 || matrix.m > MOST_SIDE || most_arc_scans(&matrix) >= LONG || matrix.kind == VALUES) Py_RETURN_NONE;
    if (!is_own(state, rows, count, matrix.n) || !is_own(state, columns, count, matrix.n)) Py_RETURN_NONE;
    const int copies = !is_plain(&matrix) || array->steps[0] % (Py_ssize_t)sizeof(double) != 0;
    if (!take(&room, &matrix, copies, spare)) Py_RETURN_NONE;
    const int done = solve_all(state, matrix, array->steps[0], count, maximize, &room, (int64_t *)((struct array *)rows)->data,
        (int64_t *)((struct array *)columns)->data);
    PyMem_Free(room.taken);
    return done ? PyBool_FromLong(1) : NULL;
}
