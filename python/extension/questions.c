/* Questions about a plan of before, and a plan whose worst pair is as good as can be. */
#include <math.h>
#include <string.h>
#include "extension.h"

/* How much dearer a pair that may not be chosen is made, in spreads of the costs that may, as in api/bottleneck.py. */
enum { AWAY = 8 };

/* ---- About a plan of before ---- */

/* Takes a plan of before into the room; whether each person has an object, and its pairs cost what they did. Whole numbers, or doubles where
   `whole` is NULL. */
static int holds(const Matrix *matrix, const double *costs, const int64_t *whole, const Room *room, int places) {
    const Plan *plan = matrix->earlier;
    if (!plan || plan->places != places) return 0;
    memcpy(room->objects, plan->objects, (size_t)plan->objects_size);
    memcpy(room->prices, plan->prices, (size_t)plan->prices_size);
    for (Py_ssize_t i = 0; i < matrix->n; i++)
        if (!room->objects[i]) return 0;
    pair_up(matrix, room);
    PyObject *now = paid(matrix, costs, whole, room);
    const int same = now ? PyObject_RichCompareBool(now, plan->paid, Py_EQ) : -1;
    Py_XDECREF(now);
    return same == 1;
}

/* Whether the same prices prove it for whole numbers too. */
static int holds_priced(const Matrix *matrix, const int64_t *whole, const Room *room, int places) {
    return matrix->earlier && matrix->earlier->prices_size && holds(matrix, NULL, whole, room, places);
}

/* Whether a plan of before is the only best one. */
PyObject *is_only(const State *state, const Matrix *matrix, int maximize, const int64_t *whole, const Room *room, int places) {
    const size_t n = (size_t)matrix->n, m = (size_t)matrix->m;
    struct info info;
    if (!holds_priced(matrix, whole, room, places)) return NULL;
    PyThreadState *thread = PyEval_SaveThread();
    const int32_t code = state->unique(maximize ? 1 : 0, n, m, room->objects, 0, room->objects, 0, whole, n * m, room->objects, n,
        (const int64_t *)room->prices, m, room->persons, n, (int32_t *)room->owners, m, &info);
    PyEval_RestoreThread(thread);
    return code == BEST || code == TIED ? PyBool_FromLong(code == BEST) : NULL;
}

/* The same of doubles: where each other plan is worse by a margin. */
PyObject *is_only_of_doubles(const State *state, const Matrix *matrix, int maximize, const double *costs, const Room *room, int64_t *whole) {
    const int places = places_of(costs, (size_t)matrix->n * (size_t)matrix->m, whole);
    uint32_t by_margin = 0;
    if (!holds(matrix, costs, places < 0 ? NULL : whole, room, places)) return NULL;
    if (solve(state, matrix, maximize, costs, room, &by_margin) != BEST || !by_margin) return NULL;
    return memcmp(room->objects, matrix->earlier->objects, (size_t)matrix->earlier->objects_size) ? NULL : PyBool_FromLong(1);
}

/* The next best plan after one of before, and what it costs; False where there is no other. */
PyObject *next_plan(const State *state, const Matrix *matrix, int maximize, const int64_t *whole, const Room *room, int places) {
    const size_t n = (size_t)matrix->n, m = (size_t)matrix->m;
    struct info info;
    int64_t margin;
    if (!holds_priced(matrix, whole, room, places)) return NULL;
    PyThreadState *thread = PyEval_SaveThread();
    const int32_t code = state->next(maximize ? 1 : 0, n, m, room->objects, 0, room->objects, 0, whole, n * m, room->objects, n,
        (const int64_t *)room->prices, m, matrix->arc_scans, room->persons, n, &margin, &info);
    PyEval_RestoreThread(thread);
    if (code == ALONE) return PyBool_FromLong(0);
    if (code != BEST) return NULL;
    memcpy(room->objects, room->persons, n * sizeof *room->objects);
    PyObject *pairs = rows_and_columns(state, matrix, room);
    return pair_of(pairs, pairs ? PyLong_FromLongLong(info.total) : NULL);
}

/* The same of doubles: the first two plans, by rounded costs. */
PyObject *next_of_doubles(const State *state, const Matrix *matrix, int maximize, const double *costs, const Room *room, int64_t *whole) {
    const int places = places_of(costs, (size_t)matrix->n * (size_t)matrix->m, whole);
    if (matrix->turned || !holds(matrix, costs, places < 0 ? NULL : whole, room, places)) return NULL;
    Matrix plain = *matrix;
    plain.earlier = NULL;
    plain.plans = 2;
    return first_of_doubles(state, &plain, maximize, costs, room, whole);
}

/* ---- A plan whose worst pair is as good as can be ---- */

/* The worst cost that is needed. */
static int32_t find_worst(const State *state, const Matrix *matrix, int maximize, const int64_t *whole, const Room *room, int64_t *worst) {
    const size_t n = (size_t)matrix->n, m = (size_t)matrix->m;
    struct record record;
    struct info info;
    memset(&record, 0, sizeof record);
    PyThreadState *thread = PyEval_SaveThread();
    const int32_t code = state->bottleneck(maximize ? 1 : 0, n, m, room->objects, 0, room->objects, 0, whole, n * m, room->objects, n,
        room->persons, n, room->owners, n, 0, &record, &info);
    PyEval_RestoreThread(thread);
    *worst = info.total;
    return code;
}

/* The same costs, where a pair that is worse than the bound costs much more; 0 where that is beyond the range. One cost for all of these
   would take the search longer, since many would be as good as each other. */
static int make_dearer(const int64_t *whole, size_t count, int maximize, int64_t bound, int64_t *dearer) {
    int64_t least = bound, greatest = bound;
    for (size_t k = 0; k < count; k++) {
        least = whole[k] < least ? whole[k] : least;
        greatest = whole[k] > greatest ? whole[k] : greatest;
    }
    const int64_t away = AWAY * (maximize ? bound - greatest - 1 : bound - least + 1);
    if (greatest + away > GREATEST_COST || least + away < -GREATEST_COST) return 0;
    for (size_t k = 0; k < count; k++) dearer[k] = whole[k] + ((maximize ? whole[k] < bound : whole[k] > bound) ? away : 0);
    return 1;
}

/* Whether no pair of the plan is worse than the bound. */
static int is_within(const Matrix *matrix, const int64_t *whole, const Room *room, int maximize, int64_t bound) {
    int good = 1;
    for (Py_ssize_t i = 0; i < matrix->n; i++) {
        const int64_t cost = whole[i * matrix->m + (Py_ssize_t)room->objects[i] - 1];
        good &= maximize ? cost >= bound : cost <= bound;
    }
    return good;
}

/* A best plan among those whose worst pair is as good as can be: it is as good, at the same prices, where worse pairs are forbidden. */
PyObject *best_worst(const State *state, const Matrix *matrix, int maximize, const int64_t *whole, const Room *room, int places) {
    const size_t count = (size_t)matrix->n * (size_t)matrix->m;
    PyObject *answer = NULL;
    struct info info;
    int64_t worst;
    if (find_worst(state, matrix, maximize, whole, room, &worst) != BEST) return NULL;
    int64_t *dearer = PyMem_Malloc(count * sizeof *dearer);
    if (dearer && make_dearer(whole, count, maximize, worst, dearer)
            && solve_whole(state, matrix, maximize, dearer, room, &info) == BEST && is_within(matrix, whole, room, maximize, worst))
        answer = found_of(state, matrix, room, NULL, whole, places, &info);
    PyMem_Free(dearer);
    return answer;
}

/* The double that a rounded cost is of; 0 where it is of several. */
static int double_of(const double *costs, const int64_t *whole, size_t count, int64_t worst, double *bound) {
    size_t many = 0;
    int good = 1;
    for (size_t k = 0; k < count; k++)
        if (whole[k] == worst) {
            if (!many++) *bound = costs[k];
            good &= costs[k] == *bound;
        }
    return good && many;
}

/* The plan for doubles of which those that are worse than the bound cost much more. */
static PyObject *best_within(const State *state, const Matrix *matrix, int maximize, const double *costs, const Room *room, double bound,
    double *dearer) {
    const size_t n = (size_t)matrix->n, m = (size_t)matrix->m, count = n * m;
    const double sign = maximize ? -1 : 1;
    double best = bound;
    uint32_t by_margin = 0;
    for (size_t k = 0; k < count; k++) best = sign * costs[k] < sign * best ? costs[k] : best;
    const double away = bound == best ? sign * (fabs(bound) + 1) : AWAY * (bound - best);
    if (!(fabs(away) <= MOST_DOUBLE)) return NULL;
    for (size_t k = 0; k < count; k++) dearer[k] = sign * costs[k] <= sign * bound ? costs[k] : costs[k] + away;
    if (solve(state, matrix, maximize, dearer, room, &by_margin) != BEST || !by_margin) return NULL;
    for (size_t i = 0; i < n; i++)
        if (sign * costs[i * m + room->objects[i] - 1] > sign * bound) return NULL;
    return found_of(state, matrix, room, costs, NULL, -1, NULL);
}

/* The same of doubles: rounded costs, if they are of one double each there, show the worst that is needed. */
PyObject *best_worst_of_doubles(const State *state, const Matrix *matrix, int maximize, const double *costs, const Room *room,
    int64_t *whole) {
    const size_t count = (size_t)matrix->n * (size_t)matrix->m;
    int shift;
    int64_t worst;
    double bound = 0;
    if (!in_fixed_point(costs, count, &shift, whole) || find_worst(state, matrix, maximize, whole, room, &worst) != BEST
            || !double_of(costs, whole, count, worst, &bound)) return NULL;
    double *dearer = PyMem_Malloc(count * sizeof *dearer);
    PyObject *answer = dearer ? best_within(state, matrix, maximize, costs, room, bound, dearer) : NULL;
    PyMem_Free(dearer);
    return answer;
}
