/* The first plans of a matrix in the order of their costs, as k_best yields them. */
#include <string.h>
#include "extension.h"

/* Where costs are rounded, so many plans more are listed. */
enum { MORE = 1 };

/* The library's answer: objects of the plans, one after the other, and what each costs. */
struct ranked {
    uint32_t *plans;
    int64_t *totals;
    size_t found;
};

/* Asks for so many plans from a best one on, without the interpreter's lock. */
static int32_t rank(const State *state, const Matrix *matrix, int maximize, const int64_t *costs, const Room *room, size_t count,
    struct ranked *ranked) {
    const size_t n = (size_t)matrix->n, m = (size_t)matrix->m;
    struct info info;
    PyThreadState *thread = PyEval_SaveThread();
    const int32_t code = state->ranked(maximize ? 1 : 0, n, m, room->persons, 0, room->objects, 0, costs, n * m, room->objects, n,
        (const int64_t *)room->prices, m, matrix->arc_scans, ranked->plans, n * count, ranked->totals, count, &ranked->found, &info);
    PyEval_RestoreThread(thread);
    return code;
}

/* Adds a value to the end of a list of which this is the place; it takes the value, which may be NULL. */
static int put(PyObject *list, Py_ssize_t place, PyObject *value) {
    return value && !PyList_SetItem(list, place, value);
}

/* The columns of each plan, in a list of lists. `columns` has room for one plan. */
static PyObject *listed_columns(const Matrix *matrix, const struct ranked *ranked, int64_t *columns) {
    const size_t n = (size_t)matrix->n;
    PyObject *list = PyList_New((Py_ssize_t)ranked->found);
    for (size_t k = 0; list && k < ranked->found; k++) {
        for (size_t i = 0; i < n; i++) columns[i] = (int64_t)ranked->plans[k * n + i] - 1;
        if (!put(list, (Py_ssize_t)k, as_list(columns, matrix->n))) Py_CLEAR(list);
    }
    return list;
}

/* The same in an array, a row for each plan. */
static PyObject *array_of_columns(const State *state, const Matrix *matrix, const struct ranked *ranked) {
    const Py_ssize_t shape[2] = {(Py_ssize_t)ranked->found, matrix->n};
    PyObject *array = state->make(state->array, 2, shape, LONGS, NULL, NULL, 0, 0, NULL);
    int64_t *columns = array ? (int64_t *)((struct array *)array)->data : NULL;
    for (Py_ssize_t k = 0; array && k < shape[0] * shape[1]; k++) columns[k] = (int64_t)ranked->plans[k] - 1;
    return array;
}

/* Rows, the columns of each plan, what each costs, and the places of whole numbers. */
static PyObject *shown(const State *state, const Matrix *matrix, const struct ranked *ranked, const Room *room, int places) {
    pair_up(matrix, room);
    PyObject *rows = as_given(state, matrix, room->rows), *answer = NULL;
    PyObject *columns = !rows ? NULL : matrix->gives_arrays ? array_of_columns(state, matrix, ranked)
        : listed_columns(matrix, ranked, room->columns);
    PyObject *totals = columns ? as_list(ranked->totals, (Py_ssize_t)ranked->found) : NULL;
    if (totals) answer = Py_BuildValue("(OOOi)", rows, columns, totals, places);
    Py_XDECREF(rows);
    Py_XDECREF(columns);
    Py_XDECREF(totals);
    return answer;
}

/* The first plans of a problem, so many or all, in memory that is to be freed; NULL where the library doesn't show them. */
static void *rank_all(const State *state, const Matrix *matrix, int maximize, const int64_t *costs, const Room *room, size_t count,
    int32_t *code, struct ranked *ranked) {
    const size_t n = (size_t)matrix->n;
    struct info info;
    if (!count || solve_whole(state, matrix, maximize, costs, room, &info) != BEST) return NULL;
    int64_t *taken = PyMem_Malloc(count * (sizeof *taken + n * sizeof(uint32_t)));
    if (!taken) return NULL;
    *ranked = (struct ranked){(uint32_t *)(taken + count), taken, 0};
    *code = rank(state, matrix, maximize, costs, room, count, ranked);
    if (*code == BEST || *code == ALONE) return taken;
    PyMem_Free(taken);
    return NULL;
}

/* Rows, the columns of each of the first plans, what each costs, and the places of whole numbers. */
PyObject *first_plans(const State *state, const Matrix *matrix, int maximize, const int64_t *costs, const Room *room, int places) {
    struct ranked ranked;
    int32_t code;
    void *taken = rank_all(state, matrix, maximize, costs, room, (size_t)matrix->plans, &code, &ranked);
    PyObject *answer = taken ? shown(state, matrix, &ranked, room, places) : NULL;
    PyMem_Free(taken);
    return answer;
}

/* The costs of all pairs, one plan after the other. */
static PyObject *paid_by_all(const Matrix *matrix, const double *costs, const struct ranked *ranked) {
    const size_t n = (size_t)matrix->n, m = (size_t)matrix->m;
    PyObject *list = PyList_New((Py_ssize_t)(n * ranked->found));
    for (size_t k = 0; list && k < n * ranked->found; k++)
        if (!put(list, (Py_ssize_t)k, PyFloat_FromDouble(costs[k % n * m + ranked->plans[k] - 1]))) Py_CLEAR(list);
    return list;
}

/* The same by rounded costs, and some plans more: rows, columns, what each costs rounded, -1, whether these are all plans, how often the
   costs were doubled, and the costs of the pairs. */
PyObject *first_of_doubles(const State *state, const Matrix *matrix, int maximize, const double *costs, const Room *room, int64_t *whole) {
    struct ranked ranked;
    int shift;
    int32_t code;
    if (!in_fixed_point(costs, (size_t)matrix->n * (size_t)matrix->m, &shift, whole)) return NULL;
    void *taken = rank_all(state, matrix, maximize, whole, room, (size_t)matrix->plans + MORE, &code, &ranked);
    PyObject *answer = taken ? shown(state, matrix, &ranked, room, -1) : NULL;
    PyObject *own = answer ? paid_by_all(matrix, costs, &ranked) : NULL;
    PyMem_Free(taken);
    return pair_of(answer, own ? Py_BuildValue("(iiN)", code == ALONE, shift, own) : NULL);
}
