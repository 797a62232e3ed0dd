/* What a matrix is asked: a best plan, the first ones, one whose worst pair is as good as can be; and of a plan of before, whether it is the
   only best one, and which is the next. Floats are the decimals that they print as. */
#include <math.h>
#include <string.h>
#include "extension.h"

/* Floats of at most so many decimal places are whole numbers of a unit. */
enum { MOST_PLACES = 6 };

/* Whether a pair is forbidden, of costs that aren't NaN. */
static int forbids(const double *costs, size_t count) {
    int found = 0;
    for (size_t k = 0; k < count; k++) found |= fabs(costs[k]) > MOST_DOUBLE;
    return found;
}

/* Whether doubles have decimals that are whole numbers, at most 10^12, of the unit 1 / power; these are written. An infinite one stands
   as 0. */
static int has_places(const double *costs, size_t count, double power, int64_t *whole) {
    for (size_t k = 0; k < count; k++) {
        const double scaled = costs[k] * power, nearest = scaled + TO_WHOLE - TO_WHOLE;
        const int is_infinite = fabs(costs[k]) > MOST_DOUBLE;
        if (!is_infinite && (!(fabs(scaled) <= (double)GREATEST_COST) || nearest / power != costs[k])) return 0;
        whole[k] = is_infinite ? 0 : (int64_t)nearest;
    }
    return 1;
}

/* How many decimal places finite doubles have at most, from 0 on; -1 where these are too many. */
int places_of(const double *costs, size_t count, int64_t *whole) {
    static const double powers[MOST_PLACES + 1] = {1, 1e1, 1e2, 1e3, 1e4, 1e5, 1e6};
    for (int places = 0; places <= MOST_PLACES; places++)
        if (has_places(costs, count, powers[places], whole)) return places;
    return -1;
}

/* ---- A best plan ---- */

static PyObject *best_of_whole(const State *state, const Matrix *matrix, int maximize, const int64_t *whole, const Room *room, int places) {
    struct info info;
    if (solve_whole(state, matrix, maximize, whole, room, &info) != BEST) return NULL;
    return found_of(state, matrix, room, NULL, whole, places, &info);
}

/* Whole numbers are the decimals that they print as; a plan for others has to be best by a margin. */
static PyObject *best_of_doubles(const State *state, const Matrix *matrix, int maximize, const double *costs, const Room *room,
    int64_t *whole) {
    const int places = places_of(costs, (size_t)matrix->n * (size_t)matrix->m, whole);
    uint32_t by_margin = 0;
    if (solve(state, matrix, maximize, costs, room, &by_margin) != BEST || !(by_margin || places == 0)) return NULL;
    return found_of(state, matrix, room, costs, whole, places, NULL);
}

/* ---- Any question ---- */

/* The answers to each question, by its number; `by_rows` says that the rows have to be the persons, `is_search` that it may take long. */
static const struct question {
    of_whole *whole;
    of_doubles *doubles;
    int by_rows, is_search;
} questions[] = {
    {best_of_whole, best_of_doubles, 0, 1},
    {first_plans, first_of_doubles, 1, 1},
    {best_worst, best_worst_of_doubles, 0, 1},
    {is_only, is_only_of_doubles, 0, 0},
    {next_plan, next_of_doubles, 0, 0},
};
enum { QUESTIONS = sizeof questions / sizeof *questions };

/* The answer for a matrix that was read. */
static PyObject *answer_of(State *state, const Matrix *matrix, int maximize, const Room *room, int64_t *whole, const struct question *asked) {
    const size_t count = (size_t)matrix->n * (size_t)matrix->m;
    if (has_whole_kind(matrix)) {
        const int64_t *costs = whole_costs_of(matrix, whole);
        return costs ? asked->whole(state, matrix, maximize, costs, room, 0) : NULL;
    }
    const double *costs = costs_of(state, matrix, room);
    if (!costs) return NULL;
    const int places = places_of(costs, count, whole);
    if (places >= 0 && !forbids(costs, count)) return asked->whole(state, matrix, maximize, whole, room, places);
    return asked->doubles ? asked->doubles(state, matrix, maximize, costs, room, whole) : NULL;
}

/* Whether a plan of before may be one of this matrix: no object is beyond its range. */
static int is_of(const Plan *plan, const Matrix *matrix) {
    const Py_ssize_t n = matrix->n, m = matrix->m;
    uint32_t object;
    if (plan->n_rows != (matrix->turned ? m : n) || plan->objects_size != 4 * n || plan->prices_size % (8 * m)) return 0;
    for (Py_ssize_t i = 0; i < n; i++) {
        memcpy(&object, plan->objects + 4 * i, sizeof object);
        if ((Py_ssize_t)object > m) return 0;
    }
    return plan->prices_size <= 8 * m;
}

/* Whether a question is left to the longer way. */
static int is_left(const Matrix *matrix, const struct question *asked) {
    return (asked->is_search && !matrix->earlier && most_arc_scans(matrix) >= LONG) || matrix->kind == HALVES
        || (matrix->kind == FLOATS && matrix->swapped) || (matrix->turned && asked->by_rows)
        || (matrix->earlier && !is_of(matrix->earlier, matrix));
}

/* found(costs, maximize, end, question, plans, arc_scans, plan): the answer to a question; None where the longer way is to be taken. A best
   plan, the plan of the best worst pair: what a result is made of. */
PyObject *found(PyObject *module, PyObject *arguments) {
    State *state = PyModule_GetState(module);
    PyObject *costs, *answer = NULL;
    double spare[SPARE];
    int maximize, question = 0;
    double end = INFINITY;
    Py_ssize_t plans = 0;
    unsigned long long arc_scans = 0;
    Plan plan = {0, 0, 0, NULL, NULL, NULL, -1};
    Matrix matrix;
    Room room;
    if (!PyArg_ParseTuple(arguments, "Op|dinK(ny#y#Oi)", &costs, &maximize, &end, &question, &plans, &arc_scans, &plan.n_rows, &plan.objects,
            &plan.objects_size, &plan.prices, &plan.prices_size, &plan.paid, &plan.places)) return NULL;
    if (question < 0 || question >= QUESTIONS || !is_ready(state) || !look_at(state, costs, &matrix, 0)) Py_RETURN_NONE;
    const struct question *asked = questions + question;
    matrix.as_printed = 1;
    matrix.end = end;
    matrix.plans = plans;
    matrix.arc_scans = arc_scans;
    matrix.earlier = plan.objects ? &plan : NULL;
    matrix.forbids = maximize ? -INFINITY : INFINITY;
    int64_t *whole = is_left(&matrix, asked) ? NULL : PyMem_Malloc((size_t)matrix.n * (size_t)matrix.m * sizeof *whole);
    if (whole && take(&room, &matrix, !is_plain(&matrix) && !has_whole_kind(&matrix), spare)) {
        answer = answer_of(state, &matrix, maximize, &room, whole, asked);
        PyMem_Free(room.taken);
    }
    PyMem_Free(whole);
    let_go(&matrix);
    if (answer && is_over(end)) Py_CLEAR(answer);
    if (answer || PyErr_Occurred()) return answer;
    Py_RETURN_NONE;
}
