/* A search for doubles that Ctrl-C ends: they are rounded to whole numbers, whose search is done in pieces. The prices that it finds are
   then changed until they show the plan best for the doubles, which the library proves. */
#include <math.h>
#include <string.h>
#include "extension.h"

/* Doubles times 2^shift, which have at most 39 bits then, rounded; 0 where one isn't finite. */
int in_fixed_point(const double *costs, size_t count, int *shift, int64_t *to) {
    double most = 0;
    int exponent;
    for (size_t k = 0; k < count; k++) most = fabs(costs[k]) > most ? fabs(costs[k]) : most;
    frexp(most, &exponent);
    *shift = 39 - exponent;
    if (most > MOST_DOUBLE || *shift > 900 || *shift < -900) return 0;
    const double factor = ldexp(1, *shift);
    int good = 1;
    for (size_t k = 0; k < count; k++) {
        good &= costs[k] == costs[k];
        to[k] = (int64_t)(costs[k] * factor + TO_WHOLE - TO_WHOLE);
    }
    return good;
}

/* Pairs that a person may rather have than its own, person by person: from starts[i] to starts[i + 1]. */
struct rivals {
    uint32_t *objects;
    size_t *starts, most;
    double unit, margin;
};

/* Finds the pairs that are worse than a person's own by less than 2 n + 16 units of rounding; 0 where these are too many. Any other stays
   worse, since no price is changed by more than that. */
static int find_rivals(const Matrix *matrix, double sign, const double *costs, const Room *room, struct rivals *rivals) {
    const size_t n = (size_t)matrix->n, m = (size_t)matrix->m;
    const double *prices = room->prices, far = (2 * (double)n + 16) * rivals->unit;
    size_t count = 0;
    for (size_t i = 0; i < n; i++) {
        const double *own = costs + i * m;
        const size_t mine = room->objects[i] - 1;
        const double least = sign * own[mine] + prices[mine] + far;
        rivals->starts[i] = count;
        for (size_t begin = 0; begin < m; begin += 64) {
            const size_t end = m - begin < 64 ? m : begin + 64;
            int any = 0;
            for (size_t j = begin; j < end; j++) any |= sign * own[j] + prices[j] < least;
            for (size_t j = begin; any && j < end; j++)
                if (j != mine && sign * own[j] + prices[j] < least) {
                    if (count == rivals->most) return 0;
                    rivals->objects[count++] = (uint32_t)j;
                }
        }
    }
    rivals->starts[n] = count;
    return 1;
}

/* How often persons are looked at before a plan is given up that isn't shown to be best. */
enum { MOST_TURNS = 256 };

/* Lets the prices of objects that somebody has be so much less, but not below those of the others, which are the
   least. */
static void lower_prices(const Matrix *matrix, const Room *room, double least, double step) {
    const size_t n = (size_t)matrix->n, m = (size_t)matrix->m;
    double *prices = room->prices;
    memset(room->owners, 0, m * sizeof *room->owners);
    for (size_t i = 0; i < n; i++) {
        const size_t mine = room->objects[i] - 1;
        room->owners[mine] = 1;
        prices[mine] = n == m || prices[mine] - step > least ? prices[mine] - step : least;
    }
}

/* Raises the prices of objects that a person would rather have than its own, until nobody would. Whether that came to an end, at prices
   that show the plan best unless they were rounded. */
static int raise_prices(const Matrix *matrix, double sign, const double *costs, const Room *room, const struct rivals *rivals) {
    const size_t n = (size_t)matrix->n, m = (size_t)matrix->m;
    double *prices = room->prices;
    int raised = 1;
    for (int turn = 0; turn < MOST_TURNS && raised; turn++) {
        raised = 0;
        for (size_t i = 0; i < n; i++) {
            const size_t mine = room->objects[i] - 1;
            const double *own = costs + i * m, paid = sign * own[mine] + prices[mine];
            for (size_t k = rivals->starts[i]; k < rivals->starts[i + 1]; k++) {
                const size_t j = rivals->objects[k];
                if (sign * own[j] + prices[j] >= paid + rivals->margin / 2) continue;
                if (!room->owners[j]) return 0;
                prices[j] = paid + rivals->margin - sign * own[j];
                raised = 1;
            }
        }
    }
    return !raised;
}

/* Prices of whole numbers as those of the doubles that these are rounded from, and then right for these. */
static int make_prices(const Matrix *matrix, int maximize, const double *costs, int shift, const Room *room, struct rivals *rivals) {
    const double sign = maximize ? -1 : 1;
    double least = INFINITY;
    for (Py_ssize_t j = 0; j < matrix->m; j++) {
        int64_t price;
        memcpy(&price, room->prices + j, sizeof price);
        room->prices[j] = ldexp((double)price, -shift);
        least = fmin(least, room->prices[j]);
    }
    rivals->unit = ldexp(1, -shift);
    rivals->margin = ldexp(1, -shift - 10);
    if (!find_rivals(matrix, sign, costs, room, rivals)) return 0;
    lower_prices(matrix, room, least, ((double)matrix->n + 8) * rivals->unit);
    return raise_prices(matrix, sign, costs, room, rivals);
}

/* The library's proof of a plan of rounded costs for the doubles. */
static int32_t prove(const State *state, const Matrix *matrix, int maximize, const double *costs, int shift, const Room *room) {
    const size_t n = (size_t)matrix->n, m = (size_t)matrix->m;
    struct doubles_info judged = {0, 0, 0, 0, 0, 0};
    struct rivals rivals = {NULL, NULL, 16 * (n + m), 0, 0};
    int32_t code = LEFT;
    rivals.objects = PyMem_Malloc(rivals.most * sizeof *rivals.objects);
    rivals.starts = PyMem_Malloc((n + 1) * sizeof *rivals.starts);
    if (rivals.objects && rivals.starts) {
        PyThreadState *thread = PyEval_SaveThread();
        if (make_prices(matrix, maximize, costs, shift, room, &rivals))
            code = state->check_doubles(maximize ? 1 : 0, n, m, costs, n * m, room->objects, n, room->prices, m, &judged);
        PyEval_RestoreThread(thread);
    }
    PyMem_Free(rivals.objects);
    PyMem_Free(rivals.starts);
    return code == BEST ? BEST : LEFT;
}

/* A search for doubles in pieces, by whole numbers that are near to them; BEST only where the library then proves the plan for the doubles.
   LEFT where it finds none so, or with an exception. */
int32_t solve_rounded(const State *state, const Matrix *matrix, int maximize, const double *costs, const Room *room) {
    const size_t count = (size_t)matrix->n * (size_t)matrix->m;
    struct info info;
    int shift;
    int64_t *whole = PyMem_Malloc(count * sizeof *whole);
    if (!whole) return LEFT;
    PyThreadState *thread = PyEval_SaveThread();
    const int good = in_fixed_point(costs, count, &shift, whole);
    PyEval_RestoreThread(thread);
    const int32_t code = good ? solve_whole(state, matrix, maximize, whole, room, &info) : LEFT;
    PyMem_Free(whole);
    return code == BEST ? prove(state, matrix, maximize, costs, shift, room) : LEFT;
}
