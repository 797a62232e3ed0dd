/* Nushbaret for C and C++: optimal assignments, with prices that prove them.

   A problem has n persons and m objects, and costs of pairs. A solving call gives each person an object, no object
   twice, so that the sum of the costs is least (or greatest). Where there is no assignment it returns a Hall set:
   persons who together list fewer objects than they are. With n = m each object is used; with n < m some stay unused;
   with n > m there is never an assignment. Persons are numbered from 1 to n, objects from 1 to m, places in lists from 0.

   Prices are whole numbers in the unit of the costs, one for each object, from 0 to NUSHBARET_GREATEST_PRICE. They prove
   an assignment optimal if each person's own object is a best one for it at these prices (the least sum of cost and price,
   under NUSHBARET_MAX the greatest cost less price), and the price is 0 where nobody has the object: complementary
   slackness.

   There are two ways to call: `nushbaret_solve`, below, takes a problem and an answer as structs; the other functions take
   each list with its length.

   WHAT A CALLER OWES

   - Each pointer is valid for as many values as the count after it says, and aligned as its type requires. No pointer
     is NULL, even where its count is 0. (In struct nushbaret_problem three pointers may be NULL: see there.)
   - What a call writes (each list that isn't const, `record` and `info`) overlaps nothing else that is passed to it. While
     the call runs, nobody else reads or writes these, and nobody changes what the call reads.
   - What a call reads has a value: for a `_from` call also objects, prices and record.
   - malloc, realloc and free are those of the C library, or any three that belong together and align as C requires.
   - The thread has 32 KB of stack left; calls were seen to take a third of it.
   - No call is made from a signal handler, or in the child of a fork of a process that had several threads.

   That is all: the numbers in the lists, the counts, n, m, the sense, the budget and the record may have any value. The
   code that a call returns says what is wrong with them.

   WHAT A CALL KEEPS

   Calls use no global state and start no thread. Any number may run at a time, in threads of the caller, each with
   lists of its own; lists that are only read may be shared. A call prints nothing, keeps no pointer, and frees all
   memory that it took before it returns, whatever its code is. A call can't be interrupted; a budget ends it early (see
   IN PIECES).

   WHAT STANDS WHERE AFTER A CALL

   The code says what was written. All else is as it was before: the lists and fields that aren't named here, and what
   follows the written part of a list.

   code                  written
   NUSHBARET_BEST        solving: objects (of person 1, 2, .., n), prices (of object 1, 2, .., m) and info->total;
                         nushbaret_check: nothing
   NUSHBARET_HALL        solving: info->persons and info->objects say how many numbers stand at the beginning of persons
                         and of objects, rising; nushbaret_check_hall: nothing
   NUSHBARET_STOPPED     objects (0: the person has none yet), prices (the search's own, also below 0) and record
   NUSHBARET_PERSON, NUSHBARET_OBJECT, NUSHBARET_COST, NUSHBARET_PRICE                  info->place
   NUSHBARET_UNLISTED                                                                   info->person
   NUSHBARET_TWICE, NUSHBARET_PRICE_RANGE, NUSHBARET_OVERPRICED, NUSHBARET_HALL_EXTRA   info->object
   NUSHBARET_SLACK, NUSHBARET_HALL_MISSING                                              info->person and info->object
   any other             nothing

   Of several faults a call returns the first in this order: the codes from NUSHBARET_SENSE to NUSHBARET_PRICE as they
   are numbered; then, in nushbaret_check, those from NUSHBARET_ANSWER_LENGTH to NUSHBARET_SLACK and
   NUSHBARET_OVERPRICED, and in nushbaret_check_hall those from NUSHBARET_HALL_RANGE to NUSHBARET_HALL_COUNT.
   info->place is the first place with this fault. NUSHBARET_MEMORY comes only where nothing is wrong with the problem or
   with a length: memory was refused that the call can't do without. The checking calls ask for it before they judge the
   numbers of an answer, nushbaret_check_hall after NUSHBARET_HALL_ORDER.

   WARM STARTS

   Over whole numbers the `_from` calls take first prices, m of them or none (first_count 0), and read objects as an earlier
   plan. Numbers that aren't from 1 to m, or stand there twice, count as nobody's. Without first prices, or where all of
   them are 0, they begin as the plain calls do. Prices of a similar problem save time, and more so with its plan.

   IN PIECES

   A budget is a number of arc scans (looks at a pair), 0 for no limit. A `_from` call that spends it returns
   NUSHBARET_STOPPED; the same call, with what it wrote to objects, prices and record, goes on from there. first counts only
   where record->stage is 0, prices only where it isn't. The passes over all pairs with which a call begins come on top of
   its budget: give it ten or more times the number of pairs, since many short calls may take longer than one. Set the
   record to 0 before the first call of a problem. Whatever first prices it has, and whatever objects, prices and record
   hold, an answer is as good.
   That calls come to one is only tested.

       struct nushbaret_record record = {0, 0, 0, 0, 0, 0, 0, 0};   (and all objects are 0)
       do code = nushbaret_dense_from(NUSHBARET_MIN, n, m, costs, n * m, costs, 0, objects, n, persons, n, prices, m,
           100000000, &record, &info);
       while (code == NUSHBARET_STOPPED && go_on());

   WHAT ANSWERS

   Each answer of a search is checked before a call returns it. Over whole numbers a slow search that is proved answers
   where nothing passes, which was seen only from records that no call wrote. So without a budget these calls return
   NUSHBARET_BEST, NUSHBARET_HALL or a fault, whatever their lists contain. Over doubles they may also return
   NUSHBARET_UNDECIDED, and nushbaret_exact_doubles decides.

   A WORKED EXAMPLE

       const int64_t costs[6] = {4, 1, 9, 2, 3, 9};   (person 1 pays 4, 1 and 9 for the three objects, person 2 pays 2, 3 and 9)
       uint32_t objects[2], persons[2];
       int64_t prices[3];
       struct nushbaret_problem problem = {NUSHBARET_MIN, 2, 3, costs, NULL, NULL, 6, NULL, 0};
       struct nushbaret_answer answer = {objects, persons, prices, {0, 0, 0, 0, 0, 0}, {0, 0, 0, 0, 0, 0, 0, 0}};
       int32_t code = nushbaret_solve(&problem, &answer);

   Now code is NUSHBARET_BEST, objects is {2, 1}: person 1 has object 2, person 2 has object 1; answer.info.total is 3.
   The prices prove that no assignment costs less: `nushbaret_verify` looks at them. c/example.c is the whole program.

   docs/PROVED.md says what is proved of each call, and what is only tested. The functions that take structs are plain C
   in this header, and only tested; they return what the proved call returned. */
#ifndef NUSHBARET_H
#define NUSHBARET_H
#include <stddef.h>
#include <stdint.h>
#ifdef __cplusplus
extern "C" {
#endif

#define NUSHBARET_VERSION "5.13.0"

/* The sense: the least sum of costs, or the greatest. */
#define NUSHBARET_MIN 0u
#define NUSHBARET_MAX 1u

/* The most persons, and the most objects; the greatest cost, either way; the greatest price. */
#define NUSHBARET_MOST_PERSONS 4194304
#define NUSHBARET_GREATEST_COST INT64_C(1000000000000)
#define NUSHBARET_GREATEST_PRICE INT64_C(9000000000000000000)

/* 'The lowest' is the lowest number with this fault. */
enum nushbaret_code {
    NUSHBARET_BEST = 0,          /* an optimal assignment; from nushbaret_check: the prices prove it optimal */
    NUSHBARET_HALL = 1,          /* there is no assignment: a Hall set; from nushbaret_check_hall: it is one */

    NUSHBARET_SENSE = 2,         /* sense isn't NUSHBARET_MIN or NUSHBARET_MAX */
    NUSHBARET_SIZE = 3,          /* n or m isn't from 1 to NUSHBARET_MOST_PERSONS */
    NUSHBARET_LENGTH = 4,        /* a list isn't as long as the call says */
    NUSHBARET_PERSON = 5,        /* of_persons[info->place] isn't from 1 to n */
    NUSHBARET_OBJECT = 6,        /* of_objects[info->place] isn't from 1 to m */
    NUSHBARET_COST = 7,          /* costs[info->place] is beyond NUSHBARET_GREATEST_COST either way */
    NUSHBARET_PRICE = 8,         /* first[info->place] isn't from 0 to NUSHBARET_GREATEST_PRICE */
    NUSHBARET_MEMORY = 9,        /* memory was refused that the call can't do without */

    NUSHBARET_ANSWER_LENGTH = 10, /* there aren't n objects and m prices */
    NUSHBARET_UNLISTED = 11,     /* info->person, the lowest, doesn't list its object */
    NUSHBARET_TWICE = 12,        /* info->object, the lowest, is given twice */
    NUSHBARET_PRICE_RANGE = 13,  /* the price of info->object, the lowest, isn't from 0 to NUSHBARET_GREATEST_PRICE */
    NUSHBARET_SLACK = 14,        /* info->person, the lowest, would be better off with info->object, its lowest one */

    NUSHBARET_HALL_RANGE = 15,   /* a person isn't from 1 to n, or an object isn't from 1 to m */
    NUSHBARET_HALL_ORDER = 16,   /* a list doesn't rise */
    NUSHBARET_HALL_MISSING = 17, /* info->person, the lowest, lists info->object, its lowest that isn't named */
    NUSHBARET_HALL_EXTRA = 18,   /* info->object, the lowest, is named, and no named person lists it */
    NUSHBARET_HALL_COUNT = 19,   /* there aren't fewer objects than persons */

    NUSHBARET_OVERPRICED = 20,   /* nobody has info->object, the lowest, and its price isn't 0 */

    NUSHBARET_STOPPED = 21,      /* the budget is spent: the same call goes on */

    NUSHBARET_UNDECIDED = 23,    /* the question stays open; over doubles where plans differ by less than rounding, which
                                    nushbaret_exact_doubles decides */
    NUSHBARET_TIED = 24,         /* from nushbaret_unique: another plan is as good */
    NUSHBARET_ALONE = 25         /* from nushbaret_next and nushbaret_ranked: there is no other plan */
};

/* Where a search stands that a budget stopped. All 0: it begins. What the fields mean is the library's own affair, and may
   change with its version; `arc_scans` counts the arc scans so far. */
struct nushbaret_record {
    uint32_t stage;
    uint32_t shift;
    int64_t slackness;
    uint64_t bids;
    uint64_t passes;
    uint32_t dummy_bids;
    uint32_t flags;
    uint64_t arc_scans;
};

/* What a call reports in addition to its lists. */
struct nushbaret_info {
    int64_t total;    /* the sum of the costs of an optimal assignment */
    uint64_t place;   /* the place of a fault in a list */
    uint64_t persons; /* how many persons a Hall set has */
    uint64_t objects; /* how many objects it has */
    uint64_t person;  /* the person that a verdict names */
    uint64_t object;  /* the object that a verdict names */
};

/* Solves a dense problem: costs[(i - 1) * m + (j - 1)] is that of person i and object j. There are n * m costs, n values
   in objects, n in persons and m in prices. */
int32_t nushbaret_dense(uint32_t sense, size_t n, size_t m,
    const int64_t *costs, size_t costs_count,
    uint32_t *objects, size_t objects_count,
    uint32_t *persons, size_t persons_count,
    int64_t *prices, size_t prices_count,
    struct nushbaret_info *info);

/* The same with a warm start, in pieces, or both: see WARM STARTS and IN PIECES. first has m prices or none; objects and
   record are read and written, prices too where record->stage isn't 0. */
int32_t nushbaret_dense_from(uint32_t sense, size_t n, size_t m,
    const int64_t *costs, size_t costs_count,
    const int64_t *first, size_t first_count,
    uint32_t *objects, size_t objects_count,
    uint32_t *persons, size_t persons_count,
    int64_t *prices, size_t prices_count,
    uint64_t budget,
    struct nushbaret_record *record,
    struct nushbaret_info *info);

/* Solves a sparse problem: of_persons[k] lists of_objects[k] at costs[k]. These three lists are of one length. A pair that
   stands there several times counts once, at its best cost: the least, under NUSHBARET_MAX the greatest. The other lists
   are as in nushbaret_dense. Where the three lists are empty nobody lists anything: NUSHBARET_HALL. */
int32_t nushbaret_sparse(uint32_t sense, size_t n, size_t m,
    const uint32_t *of_persons, size_t of_persons_count,
    const uint32_t *of_objects, size_t of_objects_count,
    const int64_t *costs, size_t costs_count,
    uint32_t *objects, size_t objects_count,
    uint32_t *persons, size_t persons_count,
    int64_t *prices, size_t prices_count,
    struct nushbaret_info *info);

/* The same as nushbaret_dense_from is to nushbaret_dense. */
int32_t nushbaret_sparse_from(uint32_t sense, size_t n, size_t m,
    const uint32_t *of_persons, size_t of_persons_count,
    const uint32_t *of_objects, size_t of_objects_count,
    const int64_t *costs, size_t costs_count,
    const int64_t *first, size_t first_count,
    uint32_t *objects, size_t objects_count,
    uint32_t *persons, size_t persons_count,
    int64_t *prices, size_t prices_count,
    uint64_t budget,
    struct nushbaret_record *record,
    struct nushbaret_info *info);

/* Checks an assignment of any origin: NUSHBARET_BEST says that these prices prove these objects optimal. A sparse problem is
   given as above; a dense one by its costs, with of_persons_count and of_objects_count 0 (any two addresses but NULL will
   do). With costs_count 0 too it is a sparse problem without pairs, not a dense one whose costs were forgotten. Objects and
   prices may have any lengths and hold any numbers. */
int32_t nushbaret_check(uint32_t sense, size_t n, size_t m,
    const uint32_t *of_persons, size_t of_persons_count,
    const uint32_t *of_objects, size_t of_objects_count,
    const int64_t *costs, size_t costs_count,
    const uint32_t *objects, size_t objects_count,
    const int64_t *prices, size_t prices_count,
    struct nushbaret_info *info);

/* Checks persons and objects against a problem, which is given as for nushbaret_check: NUSHBARET_HALL says that they are a
   Hall set, so that there is no assignment. In a problem without pairs any persons without objects are one: mind the
   counts. */
int32_t nushbaret_check_hall(size_t n, size_t m,
    const uint32_t *of_persons, size_t of_persons_count,
    const uint32_t *of_objects, size_t of_objects_count,
    const int64_t *costs, size_t costs_count,
    const uint32_t *persons, size_t persons_count,
    const uint32_t *objects, size_t objects_count,
    struct nushbaret_info *info);

/* Whether an assignment is the only best one. The problem, its objects and their prices are given as for nushbaret_check.

   code                  written
   NUSHBARET_BEST        ranks: it is the only best one
   NUSHBARET_TIED        other: another one as good, which the same prices prove
   NUSHBARET_UNDECIDED   nothing: it is a best one, no more is shown (never seen)
   any other             as in nushbaret_check

   other has n values, ranks has m. Ranks show that there is no other plan as good: where another object is as good for a
   person, at these prices, as its own, its rank is higher; the rank is 0 where nobody has the object, and from 0 where its
   price is 0.
   The time is that of nushbaret_check, two to four times. Listed pairs that are as good as their persons' own are sorted. */
int32_t nushbaret_unique(uint32_t sense, size_t n, size_t m,
    const uint32_t *of_persons, size_t of_persons_count,
    const uint32_t *of_objects, size_t of_objects_count,
    const int64_t *costs, size_t costs_count,
    const uint32_t *objects, size_t objects_count,
    const int64_t *prices, size_t prices_count,
    uint32_t *other, size_t other_count,
    int32_t *ranks, size_t ranks_count,
    struct nushbaret_info *info);

/* Who can change places at no cost: the groups of a best assignment's objects. The problem, its objects and their prices are
   given as for nushbaret_check.

   code                  written
   NUSHBARET_BEST        groups: the number of each object's group
   NUSHBARET_UNDECIDED   nothing: it is a best one, no more is shown (never seen)
   any other             as in nushbaret_check

   groups has m values; a person's group is that of its object. In some best assignment a person has a listed object exactly
   where that is as good for it, at these prices, as its own, and both have the same number. An object whose number no other
   has stays with its person, or with nobody, in each best assignment.
   Two objects have the same number exactly where each reaches the other: from the object of a person to each other one that
   is as good for the person; from each that nobody has to each whose price is 0.
   The time is that of nushbaret_check, two to four times, and linear in the pairs that are as good as the own ones, for
   which it takes 48 bytes each. */
int32_t nushbaret_groups(uint32_t sense, size_t n, size_t m,
    const uint32_t *of_persons, size_t of_persons_count,
    const uint32_t *of_objects, size_t of_objects_count,
    const int64_t *costs, size_t costs_count,
    const uint32_t *objects, size_t objects_count,
    const int64_t *prices, size_t prices_count,
    uint32_t *groups, size_t groups_count,
    struct nushbaret_info *info);

/* The next best assignment after a best one: of all others, one of the least cost (under NUSHBARET_MAX of the greatest).
   The problem, its objects and their prices are given as for nushbaret_check. other has n values.

   code                  written
   NUSHBARET_BEST        other: a next best one; info->total: its cost; *margin: by how much it is worse, 0 if it is as good
   NUSHBARET_ALONE       nothing: there is no other assignment
   NUSHBARET_UNDECIDED   nothing: it is a best one, no more is shown
   any other             as in nushbaret_check

   The search looks at pairs at most so often, in addition to its passes over all, or it ends with NUSHBARET_UNDECIDED;
   UINT64_MAX sets no end. The code is the same where the proof would take more than 2^24 further prices, 128 MB, or prices
   above NUSHBARET_GREATEST_PRICE (neither was seen). */
int32_t nushbaret_next(uint32_t sense, size_t n, size_t m,
    const uint32_t *of_persons, size_t of_persons_count,
    const uint32_t *of_objects, size_t of_objects_count,
    const int64_t *costs, size_t costs_count,
    const uint32_t *objects, size_t objects_count,
    const int64_t *prices, size_t prices_count,
    uint64_t arc_scans,
    uint32_t *other, size_t other_count,
    int64_t *margin,
    struct nushbaret_info *info);

/* The first assignments in the order of their costs, after a best one: none of all others costs less than the last of them
   (under NUSHBARET_MAX more). The problem, its objects and their prices are given as for nushbaret_check. As many are
   asked for as there are totals, at least one; plans has n values for each.

   code                  written
   NUSHBARET_BEST        plans, one after the other; totals: what each costs; *found: how many they are
   NUSHBARET_ALONE       the same at the front of plans and totals: there are fewer, and these are all
   NUSHBARET_UNDECIDED   nothing: the given one is best, no more is shown
   any other             as in nushbaret_check

   No two are the same. The first one costs as much as the given one, and may be another. arc_scans is as in nushbaret_next. */
int32_t nushbaret_ranked(uint32_t sense, size_t n, size_t m,
    const uint32_t *of_persons, size_t of_persons_count,
    const uint32_t *of_objects, size_t of_objects_count,
    const int64_t *costs, size_t costs_count,
    const uint32_t *objects, size_t objects_count,
    const int64_t *prices, size_t prices_count,
    uint64_t arc_scans,
    uint32_t *plans, size_t plans_count,
    int64_t *totals, size_t totals_count,
    size_t *found,
    struct nushbaret_info *info);

/* Looks for a plan whose worst pair is as good as possible: the greatest cost of its pairs is least, under NUSHBARET_MAX the
   least one greatest. The problem is given as for nushbaret_check. objects, persons and few have n values each.

   code                  written
   NUSHBARET_BEST        objects; info->total: the cost of the worst pair; and persons who show that no plan has a better
                         one: info->persons and info->objects say how many numbers stand at the beginning of persons and
                         of few, rising. At better costs these persons list only these few objects, fewer than they are
   NUSHBARET_HALL        the same two lists, of all costs: there is no plan
   NUSHBARET_STOPPED     objects and record, as of a `_from` call: the same call goes on. It comes only with a budget
   NUSHBARET_UNDECIDED   nothing: the search found nothing that the checker takes (never seen)
   any other             as in nushbaret_check

   Often one person shows it, who has no better pair, with no object; or all persons with all objects but one, which nobody
   lists at a better cost. objects are read only where record->stage isn't 0. Whatever objects and record hold, an answer is
   as good. A plan of the least sum among those whose worst pair is as good is one of the pairs up to info->total:
   nushbaret_sparse finds it. */
int32_t nushbaret_bottleneck(uint32_t sense, size_t n, size_t m,
    const uint32_t *of_persons, size_t of_persons_count,
    const uint32_t *of_objects, size_t of_objects_count,
    const int64_t *costs, size_t costs_count,
    uint32_t *objects, size_t objects_count,
    uint32_t *persons, size_t persons_count,
    uint32_t *few, size_t few_count,
    uint64_t budget,
    struct nushbaret_record *record,
    struct nushbaret_info *info);

/* BLOCKS. A problem of which no machine holds all pairs: blocks have its pairs, each at least once. A row may lie in several
   blocks. A plan has an object for each person and a price for each object; a person's number is the sum of the cost and the
   price of its own pair (under NUSHBARET_MAX the price less the cost). The plan is optimal for the whole problem if
   - no block has a better pair, one whose sum is below its person's number;
   - each person's own pair stands in some block at that sum;
   - no object is given twice, no price is below 0, and each is 0 where nobody has the object. nushbaret_check shows this:
     called with the n own pairs alone as a sparse problem it returns NUSHBARET_BEST.
   docs/PROOFS.md has the proof (`blocks_mean_best`). At any prices from 0 the sum over all persons of their least sums (of a
   person in several blocks the least of these) less the sum of all prices bounds the cost of each assignment from below
   (under NUSHBARET_MAX its cost with the other sign): `blocks_bound`. There is no assignment if all blocks show that some
   persons list only objects of a set which is smaller than they are: nushbaret_check_hall over a block returns
   NUSHBARET_HALL, NUSHBARET_HALL_EXTRA or NUSHBARET_HALL_COUNT only where the block's named persons list no object that
   isn't named (`closed_verdicts`, `blocks_forbid`).
   Which objects outside of the set they list, nushbaret_block answers; there is no other call for it. Give it 10^12 + 1 as
   the number of each of these persons and -10^12 as that of each other one, 2 * 10^12 + 1 as the price of each object of the
   set and 0 as that of each other one, under NUSHBARET_MIN or NUSHBARET_MAX. Then each better pair is one of these persons
   with an object outside of the set, and there is none only where they list none there (`bounds_show_closed`). With most =
   m all of them are written, as far as the lists reach.

   nushbaret_block looks at n persons of the problem, numbered from 1 in the block, and all m objects. The block's pairs are
   given as for nushbaret_check. objects and numbers have a value for each person: its own object and its number, any
   numbers; prices has one for each object.

   code                  written
   NUSHBARET_BEST        no pair is better: least, own, and info->persons, which is 0
   NUSHBARET_SLACK       info->person, the lowest, has the better pair of info->object, its lowest one: least, own, and
                         info->persons better pairs at the beginning of better_persons, better_objects and better_costs
   NUSHBARET_PRICE       info->place: prices[info->place] isn't from 0 to NUSHBARET_GREATEST_PRICE
   any other fault       as in nushbaret_check

   least[i] is the least sum of the person in the block, INT64_MAX if it has no pair there. own[i] is 1 if the block has the
   person's own pair at its number, else 0. At most `most` better pairs of a person are written, those of the least sums, by
   persons, of a dense block then by objects, as far as the three lists reach, which have one length; it may be 0. That each
   of them is better is proved, that they are the least ones is tested. Without a better pair the time is about that of
   nushbaret_check. With 1,000 objects it is less than twice that if half of the persons have many better pairs, up to three
   times if all have; in short rows of which most pairs are better, finding the least ones takes most of it. */
int32_t nushbaret_block(uint32_t sense, size_t n, size_t m,
    const uint32_t *of_persons, size_t of_persons_count,
    const uint32_t *of_objects, size_t of_objects_count,
    const int64_t *costs, size_t costs_count,
    const uint32_t *objects, size_t objects_count,
    const int64_t *numbers, size_t numbers_count,
    const int64_t *prices, size_t prices_count,
    size_t most,
    int64_t *least, size_t least_count,
    uint8_t *own, size_t own_count,
    uint32_t *better_persons, size_t better_persons_count,
    uint32_t *better_objects, size_t better_objects_count,
    int64_t *better_costs, size_t better_costs_count,
    struct nushbaret_info *info);

/* COSTS OF 128 BITS. The same problems with greater costs: from -2^100 to 2^100. A number is high * 2^64 + low, so a number of
   64 bits has high 0, or -1 if it is below 0; low is the remainder. */
struct nushbaret_wide_number {
    uint64_t low;
    int64_t high;
};

/* Solves a problem of these costs, given as for nushbaret_check. There are n values in objects, n in persons and m in
   prices.

   code                  written
   NUSHBARET_BEST        objects; prices, from 0 to 2^124, that prove them optimal; *total
   NUSHBARET_HALL        info->persons and info->objects say how many numbers stand at the beginning of persons and of
                         objects, rising
   NUSHBARET_UNDECIDED   nothing: the search found nothing that the checker takes (never seen)
   any other             as in nushbaret_check: a fault, and info->place

   The costs are solved level by level, each as a problem of 64 bits: the first 39 bits of all pairs, then more bits of those that
   are left. A Hall set doesn't depend on costs: nushbaret_check_hall checks it, on costs of 0. */
int32_t nushbaret_wide(uint32_t sense, size_t n, size_t m,
    const uint32_t *of_persons, size_t of_persons_count,
    const uint32_t *of_objects, size_t of_objects_count,
    const struct nushbaret_wide_number *costs, size_t costs_count,
    uint32_t *objects, size_t objects_count,
    uint32_t *persons, size_t persons_count,
    struct nushbaret_wide_number *prices, size_t prices_count,
    struct nushbaret_wide_number *total,
    struct nushbaret_info *info);

/* Checks an assignment of any origin: as nushbaret_check, with prices from 0 to 2^124. */
int32_t nushbaret_check_wide(uint32_t sense, size_t n, size_t m,
    const uint32_t *of_persons, size_t of_persons_count,
    const uint32_t *of_objects, size_t of_objects_count,
    const struct nushbaret_wide_number *costs, size_t costs_count,
    const uint32_t *objects, size_t objects_count,
    const struct nushbaret_wide_number *prices, size_t prices_count,
    struct nushbaret_info *info);

/* Of all optimal assignments, one that changes fewest persons. kept has n numbers: the object that each person had so far, 0
   if none. A person whose object isn't this one is changed. The problem is given as for nushbaret_check, so its costs are at
   most NUSHBARET_GREATEST_COST. There are n values in objects, n in persons and m in prices.

   code                  written
   NUSHBARET_BEST        objects; info->total; *changed, how many persons are changed: no optimal assignment changes fewer;
                         and prices, from 0 to 2^124, that prove it
   NUSHBARET_HALL        info->persons and info->objects say how many numbers stand at the beginning of persons and of
                         objects, rising
   NUSHBARET_UNDECIDED   nothing: the search found nothing that the checker takes (never seen)
   NUSHBARET_UNLISTED    info->place: kept[info->place] is above m, and the problem has no fault
   any other             as in nushbaret_check: a fault, and info->place

   The prices are those of other costs: n + 1 times each cost, and 1 more (under NUSHBARET_MAX 1 less) for a pair that isn't
   kept. nushbaret_check_wide checks the answer, with these costs. A kept object needn't be listed by its person, and may be
   that of several persons. */
int32_t nushbaret_fewest_changes(uint32_t sense, size_t n, size_t m,
    const uint32_t *of_persons, size_t of_persons_count,
    const uint32_t *of_objects, size_t of_objects_count,
    const int64_t *costs, size_t costs_count,
    const uint32_t *kept, size_t kept_count,
    uint32_t *objects, size_t objects_count,
    uint32_t *persons, size_t persons_count,
    struct nushbaret_wide_number *prices, size_t prices_count,
    size_t *changed,
    struct nushbaret_info *info);

/* DOUBLES. Dense problems whose costs are doubles, each of which is taken for exactly the number that it is. An infinity
   forbids its pair: the positive one under NUSHBARET_MIN, the negative one under NUSHBARET_MAX. What is no number and the
   other infinity are faults: NUSHBARET_COST, with the first one's place. What a caller owes and what a call keeps is as
   above; `info` is a struct of its own.

   code                  written
   NUSHBARET_BEST        solving: objects and prices; and info->by_margin in each call
   NUSHBARET_HALL        info->persons and info->objects say how many numbers stand at the beginning of persons and of
                         objects, rising
   NUSHBARET_COST        info->place
   NUSHBARET_UNLISTED, NUSHBARET_TWICE                                                  info->person
   NUSHBARET_PRICE_RANGE                                                                info->object
   any other             nothing

   Of several faults a call returns the one with the least number.

   NUSHBARET_BEST: no plan has a lesser sum (under NUSHBARET_MAX a greater one) in exact arithmetic, without any rounding.
   At the prices, which are finite, each person's own object is a best one, and no price is below that of an object that
   nobody has. NUSHBARET_HALL: there is no plan. NUSHBARET_UNDECIDED says neither: plans that differ by less than the
   rounding of their costs are mostly why, or costs of very different sizes. nushbaret_exact_doubles decides it.

   What a call over doubles reports in addition to its lists. */
struct nushbaret_doubles_info {
    uint64_t place;     /* the place of a fault in the costs */
    uint64_t persons;   /* how many persons a Hall set has */
    uint64_t objects;   /* how many objects it has */
    uint64_t person;    /* the person that a verdict names */
    uint64_t object;    /* the object that a verdict names */
    uint32_t by_margin; /* 1: each other object of a person is worse by more than 2^-52 of the size of each cost, so that no
                           plan is as good, and none is better for numbers of which the costs are the nearest doubles;
                           0: not shown */
};

/* Solves a dense problem over doubles: costs[(i - 1) * m + (j - 1)] is that of person i and object j. There are n * m costs,
   n values in objects, n in persons and m in prices. */
int32_t nushbaret_doubles(uint32_t sense, size_t n, size_t m,
    const double *costs, size_t costs_count,
    uint32_t *objects, size_t objects_count,
    uint32_t *persons, size_t persons_count,
    double *prices, size_t prices_count,
    struct nushbaret_doubles_info *info);

/* The same from an earlier plan and its prices, which are read from objects (0: the person has none) and prices. Where a few
   rows changed since, set their objects to 0: each takes one search for a shortest path. Whatever the lists hold, an answer
   is as good; where none is found from there, it searches from nothing. */
int32_t nushbaret_doubles_from(uint32_t sense, size_t n, size_t m,
    const double *costs, size_t costs_count,
    uint32_t *objects, size_t objects_count,
    uint32_t *persons, size_t persons_count,
    double *prices, size_t prices_count,
    struct nushbaret_doubles_info *info);

/* Checks a plan and prices of any origin: NUSHBARET_BEST says that these prices prove these objects best. A person whose object
   isn't there or is forbidden is NUSHBARET_UNLISTED, one whose object a person before it has NUSHBARET_TWICE, an object
   whose price isn't finite NUSHBARET_PRICE_RANGE; the lowest is named. Else it is NUSHBARET_UNDECIDED. Where there aren't
   n objects and m prices it is NUSHBARET_LENGTH. */
int32_t nushbaret_check_doubles(uint32_t sense, size_t n, size_t m,
    const double *costs, size_t costs_count,
    const uint32_t *objects, size_t objects_count,
    const double *prices, size_t prices_count,
    struct nushbaret_doubles_info *info);

/* Solves a dense problem over doubles as one of 128 bits, so rounding leaves nothing open. All finite costs are whole multiples
   of a unit 2^u: u is the greatest number of this kind, or 0 if each of them is 0. A number of units is high * 2^64 + low. What
   isn't said here is as in nushbaret_doubles, and `info` is that of whole numbers.

   code                  written
   NUSHBARET_BEST        objects; prices, from 0 to 2^124 units, that prove them optimal; *total, in units; *unit, which is u
   NUSHBARET_HALL        info->persons and info->objects say how many numbers stand at the beginning of persons and of
                         objects, rising; *unit
   NUSHBARET_UNDECIDED   *unit: the search found nothing that the checker takes (never seen)
   NUSHBARET_COST        info->place: the first double that is no cost; if there is none, the first above 2^100 units
   NUSHBARET_SENSE, NUSHBARET_SIZE, NUSHBARET_LENGTH, NUSHBARET_MEMORY                  nothing

   NUSHBARET_BEST and NUSHBARET_HALL mean what they mean there: in exact arithmetic no plan has a lesser sum (under
   NUSHBARET_MAX a greater one), or there is no plan. A cost above 2^100 units is above 2^100 of any other unit. There is none
   where each cost but 0 is at least 2^-47 of the greatest. */
int32_t nushbaret_exact_doubles(uint32_t sense, size_t n, size_t m,
    const double *costs, size_t costs_count,
    uint32_t *objects, size_t objects_count,
    uint32_t *persons, size_t persons_count,
    struct nushbaret_wide_number *prices, size_t prices_count,
    struct nushbaret_wide_number *total,
    int32_t *unit,
    struct nushbaret_info *info);

/* Checks a plan of any origin, with prices in this unit, against a dense problem over doubles: as nushbaret_check_wide.
   Unless there is a fault, it writes *unit. NUSHBARET_BEST: the plan is optimal in exact arithmetic. */
int32_t nushbaret_check_exact_doubles(uint32_t sense, size_t n, size_t m,
    const double *costs, size_t costs_count,
    const uint32_t *objects, size_t objects_count,
    const struct nushbaret_wide_number *prices, size_t prices_count,
    int32_t *unit,
    struct nushbaret_info *info);

/* Looks at a block of a greater problem over doubles, in exact arithmetic: n of its persons, with the costs of all m objects
   row by row. It is as nushbaret_block, except for what follows. The number of a person is the exact sum of a cost (under
   NUSHBARET_MAX its negative) and a price, as those of its own pair: number_costs and number_prices have n values each.

   code                  written
   NUSHBARET_BEST        no pair is better: least_objects, least_costs, own, and info->persons, which is 0
   NUSHBARET_SLACK       info->person, the lowest, has the better pair of info->object, its lowest one: the same lists, and
                         info->persons better pairs at the beginning of better_persons, better_objects and better_costs
   NUSHBARET_PRICE_RANGE info->object: its price isn't finite
   NUSHBARET_PRICE       info->person: a part of its number isn't finite
   NUSHBARET_SENSE, NUSHBARET_SIZE, NUSHBARET_LENGTH, NUSHBARET_MEMORY; NUSHBARET_COST: info->place

   Of several faults the first of NUSHBARET_SENSE to NUSHBARET_COST is named, then prices, numbers, memory. least_objects[i] is
   an object whose sum of cost and price no other pair of the person is below, and least_costs[i] its cost; object 0 if all of
   its pairs are forbidden. These sums bound all plans as those of nushbaret_block do. own[i] is 1 if the person's own pair
   isn't forbidden and its sum is the number, else 0. No better pair is written twice; sums that round to one double count as
   equal where the least ones are chosen.

   A block may have some of the objects, with their prices. So listed pairs are packed into blocks: a few persons with the
   objects that one of them lists, other pairs forbidden. */
int32_t nushbaret_block_doubles(uint32_t sense, size_t n, size_t m,
    const double *costs, size_t costs_count,
    const uint32_t *objects, size_t objects_count,
    const double *number_costs, size_t number_costs_count,
    const double *number_prices, size_t number_prices_count,
    const double *prices, size_t prices_count,
    size_t most,
    uint32_t *least_objects, size_t least_objects_count,
    double *least_costs, size_t least_costs_count,
    uint8_t *own, size_t own_count,
    uint32_t *better_persons, size_t better_persons_count,
    uint32_t *better_objects, size_t better_objects_count,
    double *better_costs, size_t better_costs_count,
    struct nushbaret_doubles_info *info);

/* Writes the version of the library and a 0 into the room if they fit, leaves a smaller room as it is, and
   returns the length of the version without the 0. */
size_t nushbaret_version(uint8_t *room, size_t room_count);

/* A problem. Dense: persons and objects are NULL, and costs has `count` values, n * m of them, row by row. Sparse: persons,
   objects and costs have `count` values each, those that nushbaret_sparse calls of_persons, of_objects and costs. `first`
   is NULL, or has m prices for a warm start. `budget` is that of a `_from` call, 0 for no limit. costs is never NULL. */
struct nushbaret_problem {
    uint32_t sense;
    size_t n, m;
    const int64_t *costs;
    const uint32_t *persons, *objects;
    size_t count;
    const int64_t *first;
    uint64_t budget;
};

/* Room for an answer, which the caller owns: n objects, n persons, m prices, none of them NULL. Set the record to 0 before
   the first call of a problem. */
struct nushbaret_answer {
    uint32_t *objects;
    uint32_t *persons;
    int64_t *prices;
    struct nushbaret_info info;
    struct nushbaret_record record;
};

/* Solves a problem as nushbaret_dense or nushbaret_sparse does. With first prices, a budget, or a record whose stage isn't
   0 it calls nushbaret_dense_from or nushbaret_sparse_from instead, which read objects: set these to 0, or to an earlier
   plan, before the first call. The code and what it writes are those of the call. */
static inline int32_t nushbaret_solve(const struct nushbaret_problem *problem, struct nushbaret_answer *answer) {
    const size_t n = problem->n, m = problem->m, count = problem->count;
    const int is_plain = problem->first == NULL && problem->budget == 0 && answer->record.stage == 0;
    const int64_t *first = problem->first == NULL ? problem->costs : problem->first;
    const size_t first_count = problem->first == NULL ? 0 : m;
    if (problem->persons == NULL && is_plain)
        return nushbaret_dense(problem->sense, n, m, problem->costs, count,
            answer->objects, n, answer->persons, n, answer->prices, m, &answer->info);
    if (problem->persons == NULL)
        return nushbaret_dense_from(problem->sense, n, m, problem->costs, count, first, first_count,
            answer->objects, n, answer->persons, n, answer->prices, m, problem->budget, &answer->record, &answer->info);
    if (is_plain)
        return nushbaret_sparse(problem->sense, n, m, problem->persons, count, problem->objects, count,
            problem->costs, count, answer->objects, n, answer->persons, n, answer->prices, m, &answer->info);
    return nushbaret_sparse_from(problem->sense, n, m, problem->persons, count, problem->objects, count,
        problem->costs, count, first, first_count, answer->objects, n, answer->persons, n, answer->prices, m,
        problem->budget, &answer->record, &answer->info);
}

/* Checks the n objects and m prices of an answer, by nushbaret_check: NUSHBARET_BEST says that they prove each other. The
   problem has a pair: with count 0 it is a sparse one, also where persons and objects are NULL. Only info of the answer is
   written. */
static inline int32_t nushbaret_verify(const struct nushbaret_problem *problem, struct nushbaret_answer *answer) {
    const size_t pairs = problem->persons == NULL ? 0 : problem->count;
    return nushbaret_check(problem->sense, problem->n, problem->m,
        problem->persons == NULL ? answer->objects : problem->persons, pairs,
        problem->persons == NULL ? answer->objects : problem->objects, pairs, problem->costs, problem->count,
        answer->objects, problem->n, answer->prices, problem->m, &answer->info);
}

/* Checks the Hall set of an answer, info.persons persons and info.objects objects, by nushbaret_check_hall. The problem has
   a pair. Only info of the answer is written. */
static inline int32_t nushbaret_verify_hall(const struct nushbaret_problem *problem, struct nushbaret_answer *answer) {
    const size_t pairs = problem->persons == NULL ? 0 : problem->count;
    return nushbaret_check_hall(problem->n, problem->m,
        problem->persons == NULL ? answer->objects : problem->persons, pairs,
        problem->persons == NULL ? answer->objects : problem->objects, pairs, problem->costs, problem->count,
        answer->persons, answer->info.persons, answer->objects, answer->info.objects, &answer->info);
}

/* ROWS. n variables, each 0 or 1, and rows of whole numbers: least[r] <= sum of coefficient * variable <= most[r]. A tree
   shows that no plan, that is no choice of the variables, meets all rows. With the row `costs <= C - 1` after the others
   this says that no plan which meets them costs less than C.

   Row r has the terms from starts[r] up to starts[r + 1] of `variables` and `coefficients`: compressed sparse rows. There
   is one start more than rows. A variable that a row has several times counts with the sum of its coefficients.
   least[r] = INT64_MIN is no lower bound, most[r] = INT64_MAX no upper one. The plan has n numbers 0 or 1, or none. With a
   plan the last row is that of the costs, with an upper bound and no lower one: the plan has to meet the others, and no plan
   that meets them costs less than most[last] + 1.

   The tree is one list, a node and then the nodes below it:
       leaf    0, k, and k pairs of a row and a multiplier
       split   1, k, t, and k pairs of a variable and a coefficient; then the node of the half where their sum is at most t,
               then that of the half where it is at least t + 1 (t is below INT64_MAX)
   A split with d splits above it is row d after the given ones, for the nodes below it. A multiplier above 0 takes a row's
   lower bound, one below 0 its upper bound. A leaf shows its claim if the greatest weighed sum is below the weighed bound:
   sum over the variables of max(0, weight) < sum of multiplier * bound, where the weight of a variable is the sum of
   multiplier * coefficient. A bound that isn't there shows nothing. docs/FORMATS.md has an example. */
enum nushbaret_rows_code {
    NUSHBARET_ROWS_SHOWN = 0,         /* no plan meets all rows; with a plan info->cost is written */
    NUSHBARET_ROWS_NOT_SHOWN = 1,     /* the leaf at tree[info->place] doesn't show it */
    NUSHBARET_ROWS_TOO_GREAT = 2,     /* there the absolute values of all products come to 2^127 or more */
    NUSHBARET_ROWS_TOO_DEEP = 3,      /* the split at tree[info->place] has 1000 splits above it */
    NUSHBARET_ROWS_SHAPE = 4,         /* no whole node stands at tree[info->place], or the tree ended before it */
    NUSHBARET_ROWS_ROW = 5,           /* tree[info->place] names a row that isn't there */
    NUSHBARET_ROWS_VARIABLE = 6,      /* tree[info->place] names a variable that isn't there */
    NUSHBARET_ROWS_LENGTH = 7,        /* the lengths of the lists don't fit each other */
    NUSHBARET_ROWS_START = 8,         /* starts[info->place] falls, isn't 0 at first, or not the number of terms at last */
    NUSHBARET_ROWS_ROW_VARIABLE = 9,  /* variables[info->place] isn't below n */
    NUSHBARET_ROWS_PLAN_NUMBER = 10,  /* plan[info->place] isn't 0 or 1 */
    NUSHBARET_ROWS_BROKEN = 11,       /* the plan doesn't meet row info->place */
    NUSHBARET_ROWS_COST = 12,         /* the plan's sum in the last row is beyond 64 bits */
    NUSHBARET_ROWS_MEMORY = 13,       /* memory was refused */
    NUSHBARET_ROWS_COST_ROW = 14      /* with a plan: the last row has a lower bound, or no upper one */
};

/* What nushbaret_rows reports. */
struct nushbaret_rows_info {
    int64_t cost;   /* the plan's sum in the last row */
    uint64_t place; /* the place of what the code names */
};

/* Checks a tree on rows, and a plan. Of several faults it returns the first: those of the lists, from NUSHBARET_ROWS_LENGTH
   to NUSHBARET_ROWS_COST as they are numbered, with NUSHBARET_ROWS_COST_ROW after NUSHBARET_ROWS_START, then the first of
   the tree in the order of its numbers. NUSHBARET_ROWS_MEMORY comes only where none of those up to
   NUSHBARET_ROWS_PLAN_NUMBER does. Other fields of `info` than those named above stay as they were. It takes time linear in
   the lists and in the terms of the rows that the leaves name, and memory of 16 bytes a variable, up to 32 a term and some
   100 a row. */
int32_t nushbaret_rows(size_t n,
    const size_t *starts, size_t starts_count,
    const uint32_t *variables, size_t variables_count,
    const int64_t *coefficients, size_t coefficients_count,
    const int64_t *least, size_t least_count,
    const int64_t *most, size_t most_count,
    const uint8_t *plan, size_t plan_count,
    const int64_t *tree, size_t tree_count,
    struct nushbaret_rows_info *info);

/* COUNTS. Rows and columns, listed pairs of them with costs, and for each row and each column from how many to how many
   pairs are to be chosen: row i takes row_least[i] to row_most[i] columns, and column j is taken by column_least[j] to
   column_most[j] rows. Columns may be in groups: of one group a row takes at most one column. A plan chooses pairs so; the
   sum of its costs is to be least, under NUSHBARET_MAX greatest. (Students and projects; hands and shifts of which one a
   day; vehicles and tours.)

   Pairs are listed by rising rows: of_rows[k] and of_columns[k], numbered from 1, at costs[k]. A pair that is listed twice is
   chosen at most once. With of_rows_count and of_columns_count 0 and costs_count above 0 each row lists each column: costs
   are row by row, as many as rows times columns, and the call writes the pairs out, 8 bytes each. The number of rows is
   row_least_count, that of columns column_least_count, each from 1 to NUSHBARET_MOST_PERSONS; there are at most 2^30
   pairs, and costs are from -10^12 to 10^12. groups has for each column its group, from 1 to the number of columns, or 0 for
   none; groups_count 0 stands for no groups.

   Where all counts go from 0 to 1 and all costs are -1, a best plan is a greatest matching: as many pairs as possible.

   Numbers of rows and columns prove a plan best. With e = cost - row's number - column's number, of the cost negated under
   NUSHBARET_MAX: each chosen pair has e <= 0 and the least e that its row lists in its group; each other pair has e >= 0, or
   its row has chosen another column of its group; a number is above 0 only where its count is the least, and below 0 only
   where it is the greatest.

   Two kinds of shortages prove that there is no plan. Rows lack: the least counts of the marked rows come to more than the
   greatest counts of the marked columns and, for each marked row, the groups that it lists outside of them. Columns lack:
   the least counts of the marked columns come to more than the greatest counts of the marked rows and, for each other row,
   the groups that it lists among the marked columns. (A column without a group is a group of its own.) */
enum nushbaret_counts_code {
    NUSHBARET_COUNTS_BEST = 0,           /* plan, row_numbers, column_numbers and info->total_high and total_low are written */
    NUSHBARET_COUNTS_ROWS_LACK = 1,      /* there is no plan: row_marks and column_marks are written */
    NUSHBARET_COUNTS_COLUMNS_LACK = 2,   /* there is no plan: row_marks and column_marks are written */
    NUSHBARET_COUNTS_SENSE = 3,          /* the sense isn't 0 or 1 */
    NUSHBARET_COUNTS_DENSE = 4,          /* no pairs are listed, and there isn't a cost for each row and each column */
    NUSHBARET_COUNTS_BUFFER = 5,         /* a list that is written has the wrong length */
    NUSHBARET_COUNTS_SIZE = 6,           /* no rows, no columns, too many of either, or too many pairs */
    NUSHBARET_COUNTS_LENGTH = 7,         /* the lengths of the lists don't fit each other */
    NUSHBARET_COUNTS_ROW = 8,            /* of_rows[info->place] is no row */
    NUSHBARET_COUNTS_ORDER = 9,          /* of_rows[info->place] is below the one before */
    NUSHBARET_COUNTS_COLUMN = 10,        /* of_columns[info->place] is no column */
    NUSHBARET_COUNTS_GROUP = 11,         /* groups[info->place] is above the number of columns */
    NUSHBARET_COUNTS_ROW_COUNTS = 12,    /* row_least[info->place] is above row_most[info->place] */
    NUSHBARET_COUNTS_COLUMN_COUNTS = 13, /* the same of columns */
    NUSHBARET_COUNTS_COST = 14,          /* costs[info->place] is out of range */
    NUSHBARET_COUNTS_MEMORY = 15,        /* memory was refused */
    NUSHBARET_COUNTS_STOPPED = 16,       /* the budget is spent: plan, row_numbers, column_numbers and record are written */
    NUSHBARET_COUNTS_UNDECIDED = 17,     /* the search found nothing that the checker takes: no claim, nothing is written */
    NUSHBARET_COUNTS_NUMBERS = 18,       /* checking: plan or numbers have the wrong length */
    NUSHBARET_COUNTS_TWICE = 19,         /* the pair at info->place and one before it are chosen, of one row and of one column or group */
    NUSHBARET_COUNTS_ROW_LOOSE = 20,     /* the count of row info->row is out of its range, or its number has the wrong sign */
    NUSHBARET_COUNTS_COLUMN_LOOSE = 21,  /* the same of column info->column */
    NUSHBARET_COUNTS_SLACK = 22,         /* the pair at info->place isn't as e asks */
    NUSHBARET_COUNTS_MARKS = 23,         /* checking: marks have the wrong length */
    NUSHBARET_COUNTS_ENOUGH = 24,        /* the marked ones have what they need: no shortage of this kind */
    NUSHBARET_COUNTS_SIDE = 25           /* the side isn't NUSHBARET_COUNTS_ROWS_LACK or NUSHBARET_COUNTS_COLUMNS_LACK */
};

/* What a call on counts reports. The sum is total_high * 2^64 + total_low: where it fits 64 bits, (int64_t)total_low. */
struct nushbaret_counts_info {
    int64_t total_high;
    uint64_t total_low;
    uint64_t place;  /* the place of what the code names */
    uint64_t row;    /* the row that it names, from 1 */
    uint64_t column; /* the column, from 1 */
};

/* Where a search stands between two calls. All 0: it begins from nothing. state[0] = 1 and the rest 0: it begins from the
   plan and the numbers of the columns. */
struct nushbaret_counts_record {
    uint64_t state[8];
};

/* Solves a problem. plan has a byte a pair, 1 for a chosen one and 0 for another; row_numbers and row_marks have a value a
   row, column_numbers and column_marks one a column; marks are 1 and 0. Of several faults a call returns the first in the
   order of its codes, but NUSHBARET_COUNTS_MEMORY may come where there are faults from NUSHBARET_COUNTS_SIZE on. What a code
   doesn't name stays as it was. The search isn't trusted: its answer is checked, and NUSHBARET_COUNTS_UNDECIDED says that
   the checker didn't take it. A call copies up to 13 bytes a pair, 21 where it writes the pairs out, and takes what the
   search needs. */
int32_t nushbaret_counts(uint32_t sense,
    const uint32_t *of_rows, size_t of_rows_count,
    const uint32_t *of_columns, size_t of_columns_count,
    const int64_t *costs, size_t costs_count,
    const uint32_t *row_least, size_t row_least_count,
    const uint32_t *row_most, size_t row_most_count,
    const uint32_t *column_least, size_t column_least_count,
    const uint32_t *column_most, size_t column_most_count,
    const uint32_t *groups, size_t groups_count,
    uint8_t *plan, size_t plan_count,
    int64_t *row_numbers, size_t row_numbers_count,
    int64_t *column_numbers, size_t column_numbers_count,
    uint8_t *row_marks, size_t row_marks_count,
    uint8_t *column_marks, size_t column_marks_count,
    struct nushbaret_counts_info *info);

/* The same, from what record says, with a budget in arc scans, 0 for none. After NUSHBARET_COUNTS_STOPPED call it again
   with the same problem, plan, numbers and record. Whatever these hold, an answer is as good. */
int32_t nushbaret_counts_from(uint32_t sense,
    const uint32_t *of_rows, size_t of_rows_count,
    const uint32_t *of_columns, size_t of_columns_count,
    const int64_t *costs, size_t costs_count,
    const uint32_t *row_least, size_t row_least_count,
    const uint32_t *row_most, size_t row_most_count,
    const uint32_t *column_least, size_t column_least_count,
    const uint32_t *column_most, size_t column_most_count,
    const uint32_t *groups, size_t groups_count,
    uint8_t *plan, size_t plan_count,
    int64_t *row_numbers, size_t row_numbers_count,
    int64_t *column_numbers, size_t column_numbers_count,
    uint8_t *row_marks, size_t row_marks_count,
    uint8_t *column_marks, size_t column_marks_count,
    uint64_t budget,
    struct nushbaret_counts_record *record,
    struct nushbaret_counts_info *info);

/* Checks a plan of any origin, by numbers: NUSHBARET_COUNTS_BEST says that they prove it best, and else the code is the first
   fault. A byte other than 0 chooses its pair. The time is linear in the pairs; the memory is the greater of 8 bytes a row
   and 16 a column.

   A plan that is best at costs c, and under NUSHBARET_MIN at k * c + d too (under NUSHBARET_MAX at k * c - d), has of all
   best plans the least sum of d. So two calls prove more: with d = -1 for the pairs of an earlier plan and 1 for others no
   best plan changes fewer; with d = 1 for its own pairs and -1 for others it is the only best one. Pairs that may differ
   get d = 0: all best plans have the same of the others. */
int32_t nushbaret_check_counts(uint32_t sense,
    const uint32_t *of_rows, size_t of_rows_count,
    const uint32_t *of_columns, size_t of_columns_count,
    const int64_t *costs, size_t costs_count,
    const uint32_t *row_least, size_t row_least_count,
    const uint32_t *row_most, size_t row_most_count,
    const uint32_t *column_least, size_t column_least_count,
    const uint32_t *column_most, size_t column_most_count,
    const uint32_t *groups, size_t groups_count,
    const uint8_t *plan, size_t plan_count,
    const int64_t *row_numbers, size_t row_numbers_count,
    const int64_t *column_numbers, size_t column_numbers_count,
    struct nushbaret_counts_info *info);

/* Checks a shortage of any origin: the side is NUSHBARET_COUNTS_ROWS_LACK or NUSHBARET_COUNTS_COLUMNS_LACK, and the call
   returns the same code where the marks are a shortage of this kind. A byte other than 0 marks its row or column. The time
   is linear in the pairs; the memory is a byte a pair and 16 bytes a column. */
int32_t nushbaret_check_shortage(uint32_t sense,
    const uint32_t *of_rows, size_t of_rows_count,
    const uint32_t *of_columns, size_t of_columns_count,
    const int64_t *costs, size_t costs_count,
    const uint32_t *row_least, size_t row_least_count,
    const uint32_t *row_most, size_t row_most_count,
    const uint32_t *column_least, size_t column_least_count,
    const uint32_t *column_most, size_t column_most_count,
    const uint32_t *groups, size_t groups_count,
    uint32_t side,
    const uint8_t *row_marks, size_t row_marks_count,
    const uint8_t *column_marks, size_t column_marks_count,
    struct nushbaret_counts_info *info);

#ifdef __cplusplus
}
#endif
#endif
