"""Places and tasks, kept plans and groups that are short, compared with slow searches through all there is."""
import itertools
import random
import unittest
from array import array

from nushbaret.roster.answer import Request, answer_of
from nushbaret.roster.by_counts import answer_by_counts
from nushbaret.roster.roster import Bounds, Roster, Takes

CASES = 500


def roster_of(persons, objects, costs, tasks=None, places=None):
    """A roster of the pairs that a dictionary of costs has."""
    pairs = sorted(costs)
    takes = [{number: Bounds(0, most) for number, most in (own or {}).items()} for own in (tasks, places)]
    return Roster([f"p{number}" for number in range(persons)], [f"o{number}" for number in range(objects)],
                  {f"p{number}": number for number in range(persons)},
                  {f"o{number}": number for number in range(objects)}, array("q", [pair[0] for pair in pairs]),
                  array("q", [pair[1] for pair in pairs]), array("q", [costs[pair] for pair in pairs]), 0,
                  ("person", "object", "cost"), ",", False,
                  takes=Takes(*takes, True) if tasks or places else None)


def drawn_costs(draw, persons, objects, share):
    return {(person, object_): draw.randint(-3, 3) for person in range(persons) for object_ in range(objects)
            if draw.random() < share}


def plans(costs, tasks, places):
    """All sets of pairs in which nobody has more than it takes."""
    found = [((), tuple(tasks), tuple(places))]
    for person, object_ in sorted(costs):
        for pairs, free, room in list(found):
            if free[person] and room[object_]:
                fewer = free[:person] + (free[person] - 1,) + free[person + 1:]
                less = room[:object_] + (room[object_] - 1,) + room[object_ + 1:]
                found.append((pairs + ((person, object_),), fewer, less))
    return [pairs for pairs, _, _ in found]


def value(pairs, costs, maximize):
    return sum(costs[pair] for pair in pairs) * (-1 if maximize else 1)


class PlacesAndTasks(unittest.TestCase):
    def drawn(self, draw):
        persons, objects = draw.randint(1, 3), draw.randint(1, 3)
        costs = drawn_costs(draw, persons, objects, draw.choice((0.6, 1)))
        tasks = [draw.choice((0, 1, 1, 2, 2, 3)) for _ in range(persons)]
        places = [draw.choice((0, 1, 1, 2, 2, 3)) for _ in range(objects)]
        return costs, tasks, places

    def test_beside_all_sets_of_pairs(self):
        draw = random.Random(1)
        for case in range(CASES):
            costs, tasks, places = self.drawn(draw)
            maximize = draw.random() < 0.5
            roster = roster_of(len(tasks), len(places), costs, dict(enumerate(tasks)), dict(enumerate(places)))
            kept = {pair for pair in costs if draw.random() < 0.3} if draw.random() < 0.5 else None
            answer = answer_by_counts(roster, Request((), maximize, True, kept))
            every = plans(costs, tasks, places)
            most = max(map(len, every))
            best = min(value(pairs, costs, maximize) for pairs in every if len(pairs) == most)
            pairs = [(pair.person, pair.object) for pair in answer.plan.pairs]
            with self.subTest(case=case):
                self.assertIn(tuple(sorted(pairs)), set(every))
                self.assertEqual((len(pairs), value(pairs, costs, maximize)), (most, best))
                self.assertEqual(bool(answer.groups), most < min(sum(tasks), sum(places)))
                if kept is not None:
                    fewest = min(len(set(those) - kept) for those in every
                                 if len(those) == most and value(those, costs, maximize) == best)
                    self.assertEqual(len(set(pairs) - kept), fewest)
                if answer.groups:
                    lack = sum(group.wanted - group.had for group in answer.groups)
                    self.assertEqual(lack, min(sum(tasks), sum(places)) - most)
                    names = [name for group in answer.groups
                             for name in (group.objects if group.of_objects else group.persons)]
                    self.assertEqual(len(names), len(set(names)))


class Others(unittest.TestCase):
    def judge(self, answer, costs, every, maximize):
        """Whether there are other best plans; what it says is compared with all plans."""
        pairs = tuple(sorted((pair.person, pair.object) for pair in answer.plan.pairs))
        every = {tuple(sorted(those)) for those in every}
        every = [those for those in every if len(those) == len(pairs)]
        best = [those for those in every if value(those, costs, maximize) == value(pairs, costs, maximize)]
        free = set().union(*best) - set.intersection(*map(set, best))
        self.judge_swaps(answer.plan.swaps, free)
        worse = [value(those, costs, maximize) for those in every if those not in best]
        if free or not worse:
            self.assertIsNone(answer.plan.next_cost)
        elif answer.plan.next_cost is not None:
            self.assertEqual(answer.plan.next_cost * (-1 if maximize else 1), min(worse))
        return answer.plan.next_cost, bool(free)

    def judge_swaps(self, swaps, free):
        """Whether swaps have all persons and objects of the pairs that are free, and no others."""
        for side in range(2):
            self.assertEqual({name for swap in swaps for name in swap[side]}, {pair[side] for pair in free})
        for person, object_ in free:
            self.assertTrue(any(person in swap.persons and object_ in swap.objects for swap in swaps))

    def test_beside_all_plans(self):
        draw, found = random.Random(4), 0
        for case in range(CASES):
            persons, objects = draw.randint(1, 5), draw.randint(1, 4)
            costs = drawn_costs(draw, persons, objects, draw.choice((0.5, 1)))
            kept = {pair for pair in costs if draw.random() < 0.3} if draw.random() < 0.3 else None
            maximize = draw.random() < 0.5
            answer = answer_of(roster_of(persons, objects, costs), Request((), maximize, True, kept, None, True))
            with self.subTest(case=case):
                found += self.judge(answer, costs, plans(costs, [1] * persons, [1] * objects), maximize)[0] is not None
        self.assertGreater(found, 50)

    def test_places_and_tasks_beside_all_plans(self):
        draw, swapped, costlier = random.Random(5), 0, 0
        for case in range(CASES):
            costs, tasks, places = PlacesAndTasks().drawn(draw)
            most, maximize = draw.choice((2, 40)), draw.random() < 0.5
            costs = {pair: cost % most for pair, cost in costs.items()}
            roster = roster_of(len(tasks), len(places), costs, dict(enumerate(tasks)), dict(enumerate(places)))
            answer = answer_by_counts(roster, Request((), maximize, True, None, None, True))
            every = plans(costs, tasks, places)
            others = {those for those in map(lambda plan: tuple(sorted(plan)), every)
                      if len(those) == len(answer.plan.pairs)}
            with self.subTest(case=case):
                next_cost, is_free = self.judge(answer, costs, every, maximize)
                self.assertEqual(next_cost is not None, not is_free and len(others) > 1)
                swapped, costlier = swapped + is_free, costlier + (next_cost is not None)
        self.assertGreater(min(swapped, costlier), 50)


class Kept(unittest.TestCase):
    def test_beside_all_best_plans(self):
        draw = random.Random(2)
        for case in range(CASES):
            persons, objects = draw.randint(1, 5), draw.randint(1, 4)
            costs = {pair: abs(cost) // 2 for pair, cost in drawn_costs(draw, persons, objects,
                                                                        draw.choice((0.5, 1))).items()}
            kept = {pair for pair in costs if draw.random() < 0.3}
            maximize, change = draw.random() < 0.5, draw.choice((None, None, 0, 1, 2))
            roster = roster_of(persons, objects, costs)
            pairs = {(pair.person, pair.object) for pair in answer_of(roster,
                                                                      Request((), maximize, True, kept,
                                                                              change)).plan.pairs}
            every = plans(costs, [1] * persons, [1] * objects)
            most = max(map(len, every))

            def judged(those):
                new = len(set(those) - kept)
                worth = value(those, costs, maximize)
                return (worth, new) if change is None else (worth + change * new,)

            with self.subTest(case=case):
                self.assertEqual(len(pairs), most)
                self.assertEqual(judged(pairs), min(judged(those) for those in every if len(those) == most))
                if change is None:
                    best = [set(those) for those in every if len(those) == most
                            and value(those, costs, maximize) == value(pairs, costs, maximize)]
                    self.assertEqual(len(pairs ^ kept), min(len(those ^ kept) for those in best))


class Groups(unittest.TestCase):
    def test_beside_all_hall_sets(self):
        """Together the groups are the least set of those with the greatest lack, and no two of them share anything."""
        draw = random.Random(3)
        for case in range(CASES):
            persons, objects = draw.randint(1, 6), draw.randint(1, 6)
            costs = drawn_costs(draw, persons, objects, draw.choice((0.2, 0.35)))
            groups = answer_of(roster_of(persons, objects, costs), Request()).groups
            of_objects = persons > objects
            listed = {}
            for pair in costs:
                own, other = reversed(pair) if of_objects else pair
                listed.setdefault(own, set()).add(other)
            count = objects if of_objects else persons
            lacks = {}
            for size in range(1, count + 1):
                for those in itertools.combinations(range(count), size):
                    lacks[those] = size - len(set().union(*(listed.get(own, set()) for own in those)))
            worst = max(lacks.values())
            with self.subTest(case=case):
                many = [group.objects if of_objects else group.persons for group in groups]
                few = [group.persons if of_objects else group.objects for group in groups]
                self.assertEqual([group.of_objects for group in groups], [of_objects] * len(groups))
                if worst <= 0:
                    self.assertEqual(groups, [])
                    continue
                for own, others, group in zip(many, few, groups):
                    self.assertEqual(set(others), set().union(*(listed.get(one, set()) for one in own)))
                    self.assertEqual((group.wanted, group.had), (len(own), len(others)))
                    self.assertGreater(len(own), len(others))
                least = set.intersection(*(set(those) for those, lack in lacks.items() if lack == worst))
                self.assertEqual(sorted(itertools.chain(*many)), sorted(least))
                self.assertEqual(len(set(itertools.chain(*few))), sum(map(len, few)))


if __name__ == "__main__":
    unittest.main()
