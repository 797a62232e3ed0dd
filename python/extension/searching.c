/* The memory of a call, and the library's searches. */
#define _POSIX_C_SOURCE 200809L
#include <math.h>
#include <string.h>
#include <time.h>
#include "extension.h"

/* Asks for what is missing. Without the library, which the longer way names then, or without NumPy there is nothing to be had. */
void ask(const State *state) {
    PyObject *done = state->connect ? PyObject_CallObject(state->connect, NULL) : NULL;
    if (!done) PyErr_Clear();
    Py_XDECREF(done);
}

/* Whether the library's addresses are here; where they aren't yet, they are asked for. */
int is_ready(const State *state) {
    if (!state->doubles) ask(state);
    return state->doubles != NULL;
}

/* The seconds of the clock that only rises. */
double now(void) {
    struct timespec time;
    return clock_gettime(CLOCK_MONOTONIC, &time) ? 0 : (double)time.tv_sec + 1e-9 * (double)time.tv_nsec;
}

/* Whether the time is over or Ctrl-C was given; an exception says so. */
int is_over(double end) {
    if (PyErr_CheckSignals()) return 1;
    if (end == INFINITY || now() < end) return 0;
    PyErr_SetString(PyExc_TimeoutError, "the time is over; nothing of the caller's was changed");
    return 1;
}

/* Gives a call its memory: `spare` if that is enough. 0 where it is refused. */
int take(Room *room, const Matrix *matrix, int copies, double *spare) {
    const size_t n = (size_t)matrix->n, m = (size_t)matrix->m;
    const size_t halves = 2 * n + m, own = m + 2 * n + (halves + 1) / 2, all = own + (copies ? n * m : 0);
    room->taken = all <= SPARE ? NULL : PyMem_Malloc(all * sizeof(double));
    if (all > SPARE && !room->taken) return 0;
    double *at = room->taken ? (double *)room->taken : spare;
    room->prices = at;
    room->rows = (int64_t *)(at + m);
    room->columns = room->rows + n;
    room->objects = (uint32_t *)(room->columns + n);
    room->persons = room->objects + n;
    room->owners = room->persons + n;
    room->costs = copies ? at + own : NULL;
    return 1;
}

/* The library's search for doubles, from nothing. */
int32_t search(const State *state, const Matrix *matrix, int maximize, const double *costs, const Room *room, uint32_t *by_margin) {
    const size_t n = (size_t)matrix->n, m = (size_t)matrix->m;
    struct doubles_info info = {0, 0, 0, 0, 0, 0};
    const int32_t code = state->doubles(maximize ? 1 : 0, n, m, costs, n * m, room->objects, n, room->persons, n, room->prices, m, &info);
    *by_margin = info.by_margin;
    return code;
}

/* The search, without the interpreter's lock where it isn't over at once. */
int32_t solve(const State *state, const Matrix *matrix, int maximize, const double *costs, const Room *room, uint32_t *by_margin) {
    if (matrix->n * matrix->m < FEW) return search(state, matrix, maximize, costs, room, by_margin);
    PyThreadState *thread = PyEval_SaveThread();
    const int32_t code = search(state, matrix, maximize, costs, room, by_margin);
    PyEval_RestoreThread(thread);
    return code;
}

/* The search for whole numbers, in pieces without the lock, between which Ctrl-C ends it: LEFT with an exception then. Prices are written as
   whole numbers. It begins at the plan of before, if there is one. */
int32_t solve_whole(const State *state, const Matrix *matrix, int maximize, const int64_t *costs, const Room *room, struct info *info) {
    const size_t n = (size_t)matrix->n, m = (size_t)matrix->m;
    struct record record;
    int32_t code = STOPPED;
    const uint64_t least = ARC_SCANS + (uint64_t)PASSES * n * m;
    uint64_t spent = 0, budget = FIRST_ARC_SCANS > least && matrix->end == INFINITY ? FIRST_ARC_SCANS : least;
    const Plan *earlier = matrix->earlier;
    const int64_t *first = earlier ? (const int64_t *)earlier->prices : costs;
    const size_t size = n * sizeof *room->objects, prices = earlier ? (size_t)earlier->prices_size / 8 : 0;
    memset(&record, 0, sizeof record);
    if (earlier) memcpy(room->objects, earlier->objects, size);
    else memset(room->objects, 0, size);
    while (code == STOPPED) {
        PyThreadState *thread = PyEval_SaveThread();
        code = state->dense_from(maximize ? 1 : 0, n, m, costs, n * m, first, prices, room->objects, n, room->persons, n,
            (int64_t *)room->prices, m, budget, &record, info);
        PyEval_RestoreThread(thread);
        spent += budget;
        budget = spent / 4 > least ? spent / 4 : least;
        if (code == STOPPED && is_over(matrix->end)) return LEFT;
    }
    return code;
}
