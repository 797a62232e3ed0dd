/* The worked example of nushbaret.h: solves a problem of two persons and three objects, and verifies the answer. */
#include "nushbaret.h"
#include <stdio.h>

int main(void) {
    const int64_t costs[6] = {4, 1, 9, 2, 3, 9};
    uint32_t objects[2], persons[2];
    int64_t prices[3];
    struct nushbaret_problem problem = {NUSHBARET_MIN, 2, 3, costs, NULL, NULL, 6, NULL, 0};
    struct nushbaret_answer answer = {objects, persons, prices, {0, 0, 0, 0, 0, 0}, {0, 0, 0, 0, 0, 0, 0, 0}};
    if (nushbaret_solve(&problem, &answer) != NUSHBARET_BEST) return 1;
    printf("cost %lld: person 1 has object %u, person 2 has object %u\n", (long long)answer.info.total, (unsigned)objects[0], (unsigned)objects[1]);
    puts(nushbaret_verify(&problem, &answer) == NUSHBARET_BEST ? "proved optimal" : "not proved");
    return 0;
}
