/* Of each two of three variables at most one is chosen, and each chosen one earns 1: a plan with one is proved best. Then
   twice the number of two chosen variables is to be 1, which no plan can reach: a split shows it. */
#include "nushbaret.h"
#include <stdio.h>

static int best(void) {
    const size_t starts[5] = {0, 2, 4, 6, 9};
    const uint32_t variables[9] = {0, 1, 1, 2, 0, 2, 0, 1, 2};
    const int64_t coefficients[9] = {1, 1, 1, 1, 1, 1, -1, -1, -1};
    const int64_t least[4] = {INT64_MIN, INT64_MIN, INT64_MIN, INT64_MIN}, most[4] = {1, 1, 1, -2};
    const uint8_t plan[3] = {0, 1, 0};
    const int64_t tree[10] = {0, 4, 0, -1, 1, -1, 2, -1, 3, -2};
    struct nushbaret_rows_info info = {0, 0};
    if (nushbaret_rows(3, starts, 5, variables, 9, coefficients, 9, least, 4, most, 4, plan, 3, tree, 10, &info)) return 1;
    printf("cost %lld, and no plan costs less than %lld\n", (long long)info.cost, (long long)most[3] + 1);
    return 0;
}

static int none(void) {
    const size_t starts[2] = {0, 2};
    const uint32_t variables[2] = {0, 1};
    const int64_t coefficients[2] = {2, 2}, least[1] = {1}, most[1] = {1};
    const uint8_t no_plan[1] = {0};
    const int64_t tree[19] = {1, 2, 0, 0, 1, 1, 1, 0, 2, 0, 1, 1, -2, 0, 2, 0, -1, 1, 2};
    struct nushbaret_rows_info info = {0, 0};
    if (nushbaret_rows(2, starts, 2, variables, 2, coefficients, 2, least, 1, most, 1, no_plan, 0, tree, 19, &info)) return 1;
    puts("no plan");
    return 0;
}

int main(void) {
    return best() || none();
}
