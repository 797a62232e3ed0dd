"""Rows of counts and groups, and the leaves that show best plans and shortages, compared with searches and with a check
in fractions."""
import random
import unittest
from unittest import mock

import nushbaret
from nushbaret.counts import count_rows as rows, planned as counts
from nushbaret.rows.certificate_check import shows, shows_here
import drawn
import row_models as models
from counts.test_counts import rosters

CASES = 500
REPORT = "please report this problem"


def certificates(counted):
    """The certificates of each shortage, and of the best plan, and whether least counts are missed."""
    lacks, plans = counts.planned(counted, True)
    terms = rows.terms_of(counted)
    return ([rows.certificate_of_lack(counted, terms, lack) for lack in lacks],
            rows.certificate_of_best(counted, lacks, plans.shown()), bool(lacks))


class Shown(unittest.TestCase):
    def test_drawn_rosters(self):
        """Each certificate is shown, and with one number changed exactly where a check in fractions shows that."""
        draw, missed, results = random.Random(71), 0, [0, 0]
        for case, (roster, _) in enumerate(rosters(71, CASES)):
            of_lacks, best, is_short = certificates(roster.counted())
            missed += is_short
            for certificate in (*of_lacks, best):
                with self.subTest(case=case):
                    self.assertEqual((shows(certificate), shows_here(certificate), models.shows(certificate)),
                                     (True, True, True))
                other = models.changed(draw, certificate)
                if other is not None:
                    is_shown = models.shows(other)
                    results[is_shown] += 1
                    with self.subTest(case=case):
                        self.assertEqual((shows(other), shows_here(other)), (is_shown, is_shown))
        self.assertGreater(min(missed, CASES - missed), 50)
        self.assertGreater(min(results), 100)

    def test_rows_say_counts_and_groups(self):
        """The plans that meet the rows are those by counts and groups that miss the least; none of these is left out,
        and no other in."""
        draw = random.Random(72)
        for case, (roster, _) in enumerate(rosters(72, 120)):
            counted = roster.counted()
            _, best, is_short = certificates(counted)
            if is_short:
                continue
            listed = list(zip(counted.rows, counted.columns))
            fit = {tuple(pair in set(pairs) for pair in listed) for missed, _, pairs in roster.plans() if missed == 0}
            some = {tuple(draw.random() < 0.4 for _ in listed) for _ in range(60)}
            some |= {tuple(plan[:place]) + (not plan[place],) + plan[place + 1:] for plan in list(fit)[:9]
                     for place in range(len(listed))}
            for plan in fit | some:
                with self.subTest(case=case):
                    self.assertEqual(models.meets(plan, best.rows[:-1]), plan in fit)

    def test_numbers_of_any_size(self):
        for unit in (1, 10**17, 10**40):
            costs = [[4 * unit, unit, None], [2 * unit, -3 * unit, 5 * unit]]
            self.assertEqual(nushbaret.assign_counts(costs, (1, 2), 1).cost, best_sum(costs))

    def test_many_may_be_missed(self):
        """Counts far above what there is need few variables."""
        result = nushbaret.assign_counts([[1, 2]], (4000000, 4194304), (0, 1), partial=True)
        self.assertEqual(result.missing_rows, {0: 3999998})


def best_sum(costs):
    """The least sum of two rows that take one or two of three columns, each once."""
    plans = drawn.plans_by_counts(costs, [(1, 2)] * 2, [(1, 1)] * 3, [])
    return min(cost for missed, cost, _ in plans if missed == 0)


class Faults(unittest.TestCase):
    COSTS = [[4, 1, 3], [2, 0, 5]]

    def test_what_is_not_shown_is_a_fault(self):
        with mock.patch.object(rows, "shows", lambda certificate: False):
            with self.assertRaisesRegex(RuntimeError, f"a group was found to be short, .*: {REPORT}"):
                nushbaret.assign_counts(self.COSTS, 1, (2, 2))
        with mock.patch.object(counts, "shows", lambda certificate: False):
            with self.assertRaisesRegex(RuntimeError, f"the best by its counts, .*: {REPORT}"):
                nushbaret.assign_counts(self.COSTS, 1, (2, 2), partial=True)

    def test_worse_plans(self):
        """No other plan of the same roster is shown as the best, and none that breaks a rule."""
        found = 0
        for case, (roster, _) in enumerate(rosters(73, 60)):
            counted = roster.counted()
            lacks, plans = counts.planned(counted, True)
            own = plans.shown()
            least = min(plan[:2] for plan in roster.plans())
            for missed, cost, pairs in list(roster.plans())[::7]:
                if (missed, cost) == least or not pairs:
                    continue
                found += 1
                with self.subTest(case=case):
                    self.assertFalse(shows(rows.certificate_of_best(counted, lacks, own._replace(pairs=pairs))))
        self.assertGreater(found, 100)

    def test_wrong_shortages(self):
        """A shortage of fewer than can be had is refused, and one of more than is needed."""
        refused = 0
        for case, (roster, _) in enumerate(rosters(74, 200)):
            counted = roster.counted()
            lacks, _ = counts.planned(counted, True)
            for lack in lacks:
                for other in (lack._replace(had=lack.had - 1), lack._replace(wanted=lack.wanted + 1),
                              lack._replace(had=lack.wanted)):
                    refused += 1
                    with self.subTest(case=case), self.assertRaisesRegex(RuntimeError, REPORT):
                        rows.check_lacks(counted, [other])
        self.assertGreater(refused, 100)

    def test_changed_numbers(self):
        """Another number shows the plan only where it still proves it."""
        draw, results = random.Random(75), [0, 0]
        for case, (roster, _) in enumerate(rosters(75, 200)):
            counted = roster.counted()
            lacks, plans = counts.planned(counted, True)
            own = plans.shown()
            numbers = [*own.rows, *own.columns]
            numbers[draw.randrange(len(numbers))] += draw.choice((-9, -1, 1, 9))
            other = own._replace(rows=numbers[:len(own.rows)], columns=numbers[len(own.rows):])
            certificate = rows.certificate_of_best(counted, lacks, other)
            results[shows(certificate)] += 1
            with self.subTest(case=case):
                self.assertEqual(shows(certificate), models.shows(certificate))
        self.assertGreater(min(results), 20)


if __name__ == "__main__":
    unittest.main()
