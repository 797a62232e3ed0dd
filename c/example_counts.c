/* A school: five students, three projects of at most two places, of which each runs with at least one. Each student ranks two
   or three projects, 1 for the first, and takes one of them. Then the projects get one place each, and there is no plan. */
#include "nushbaret.h"
#include <stdio.h>

enum { STUDENTS = 5, PROJECTS = 3, RANKS = 12 };

static const uint32_t of_students[RANKS] = {1, 1, 2, 2, 2, 3, 3, 4, 4, 4, 5, 5};
static const uint32_t of_projects[RANKS] = {1, 2, 1, 2, 3, 1, 3, 1, 2, 3, 1, 2};
static const int64_t ranks[RANKS] = {1, 2, 1, 3, 2, 1, 2, 2, 1, 3, 1, 2};

int main(void) {
    const uint32_t one[STUDENTS] = {1, 1, 1, 1, 1}, least[PROJECTS] = {1, 1, 1}, no_groups[1] = {0};
    const uint32_t places[PROJECTS] = {2, 2, 2}, few_places[PROJECTS] = {1, 1, 1};
    uint8_t plan[RANKS], short_students[STUDENTS], short_projects[PROJECTS];
    int64_t students[STUDENTS], projects[PROJECTS];
    struct nushbaret_counts_info info = {0, 0, 0, 0, 0};
    int k, needed = 0;
    if (nushbaret_counts(NUSHBARET_MIN, of_students, RANKS, of_projects, RANKS, ranks, RANKS, one, STUDENTS, one, STUDENTS,
            least, PROJECTS, places, PROJECTS, no_groups, 0, plan, RANKS, students, STUDENTS, projects, PROJECTS,
            short_students, STUDENTS, short_projects, PROJECTS, &info) != NUSHBARET_COUNTS_BEST)
        return 1;
    printf("ranks %lld\n", (long long)info.total_low);
    for (k = 0; k < RANKS; k++)
        if (plan[k]) printf("student %u: project %u\n", (unsigned)of_students[k], (unsigned)of_projects[k]);
    if (nushbaret_check_counts(NUSHBARET_MIN, of_students, RANKS, of_projects, RANKS, ranks, RANKS, one, STUDENTS, one, STUDENTS,
            least, PROJECTS, places, PROJECTS, no_groups, 0, plan, RANKS, students, STUDENTS, projects, PROJECTS,
            &info) != NUSHBARET_COUNTS_BEST)
        return 1;
    if (nushbaret_counts(NUSHBARET_MIN, of_students, RANKS, of_projects, RANKS, ranks, RANKS, one, STUDENTS, one, STUDENTS,
            least, PROJECTS, few_places, PROJECTS, no_groups, 0, plan, RANKS, students, STUDENTS, projects, PROJECTS,
            short_students, STUDENTS, short_projects, PROJECTS, &info) != NUSHBARET_COUNTS_ROWS_LACK)
        return 1;
    for (k = 0; k < STUDENTS; k++) needed += short_students[k];
    printf("with one place each: %d students have too few places\n", needed);
    return 0;
}
