"""The command for rosters with names: what it prints and writes, and with which status it ends."""
import csv
import io
import itertools
import json
import os
import pathlib
import random
import subprocess
import sys
import tempfile
import unittest
from unittest import mock

import nushbaret
from nushbaret.lap import library
from nushbaret.roster.answer import ShortGroup, listed, plural, sentence
from nushbaret.roster.files import OutputFault, write_file
from nushbaret.roster.names import without_marks
from nushbaret.roster.forms import read_roster
from nushbaret.roster.words import parser_of
from commands import OTHERS, SQUARE, TOP, Runs, environment, parsed, program, shell, square, without_names

NIGHTS = ("person,shift,hours\nAda,early,1\nBen,night,2\nBen,weekend,3\nCleo,night,2\nDan,night,1\nDan,weekend,5\n"
          "Ada,late,2\nAda,office,1\n")
SENTENCE = ("3 people (Ben, Cleo, Dan) can take only 2 shifts between them (night, weekend): "
            "allow one of them another, or leave one out")


class Plans(Runs):
    def test_least_and_greatest(self):
        self.file("r.csv", SQUARE)
        self.expect(0, "least cost: 5\nAda: late, 1\nBen: early, 2\nCleo: night, 2\n", "", "r.csv")
        self.expect(0, "greatest cost: 11\nAda: early, 4\nBen: night, 5\nCleo: late, 2\n", "", "r.csv", "--max")

    def test_decimal_comma(self):
        self.file("r.csv", "wer;was;Stunden\nAda;fr\u00fch;2,50\nAda;sp\u00e4t;-4\nBen;fr\u00fch;0,05\n")
        status, out, _ = self.run_words("r.csv", "--decimal-comma", "--output", "p.csv")
        self.assertEqual((status, out), (0, "least Stunden: -3,95\nAda: sp\u00e4t, -4,00\nBen: fr\u00fch, 0,05\n"))
        self.assertEqual(self.read("p.csv"), "wer;was;Stunden\nAda;sp\u00e4t;-4,00\nBen;fr\u00fch;0,05\n")

    def test_unequal_numbers(self):
        self.file("r.csv", ",x,y,z\nAda,5,1,4\nBen,1,1,9\n")
        self.expect(0, "least cost: 2\nAda: y, 1\nBen: x, 1\nunused: z\n", "", "r.csv")
        self.file("r.csv", ",x,y\nAda,5,1\nBen,1,1\nCleo,9,9\n")
        self.expect(0, "least cost: 2\nAda: y, 1\nBen: x, 1\nwithout: Cleo\n", "", "r.csv")
        self.expect(0, "greatest cost: 14\nAda: x, 5\nCleo: y, 9\nwithout: Ben\n", "", "r.csv", "--max")

    def test_vehicles_and_jobs(self):
        drawn = random.Random(12)
        self.file("r.csv", "," + ",".join(f"job {number}" for number in range(20)) + "\n"
                  + "".join(f"vehicle {number}," + ",".join(str(drawn.randrange(100)) for _ in range(20)) + "\n"
                            for number in range(12)))
        status, out, _ = self.run_words("r.csv")
        self.assertEqual((status, out.count("vehicle"), len(out[out.index("unused: "):].split(", "))), (0, 12, 8))

    def test_rounded(self):
        self.file("r.csv", ",x,y\nAda,1.25,2\nBen,1.5,1\n")
        self.expect(0, "least cost: 2.2\ncosts were rounded: another plan may be better for the exact ones, by 0.2 at "
                    "most\nAda: x, 1.2\nBen: y, 1.0\n", "", "r.csv", "--round", "1")
        self.file("r.csv", ",x,y\nAda,1.5,2\nBen,1.5,1\n")
        self.expect(0, "least cost: 2.5\nAda: x, 1.5\nBen: y, 1.0\n", "", "r.csv", "--round", "1")
        self.refused(2, "not allowed with argument", "r.csv", "--round", "1", "--decimals", "1")

    def test_what_was_read(self):
        self.file("r.csv", "nurse,shift,hours\nAda,day,1\nada,night,2\nada,N ight,2\n")
        alike = ("r.csv: 'Ada', 'ada' differ in case or spaces alone\nr.csv: 'night', 'N ight' differ in case or "
                 "spaces alone\n")
        out = "least hours: 3\nAda: day, 1\nada: night, 2\nunused: N ight\n" + OTHERS
        self.expect(0, out, alike, "r.csv")
        self.assertEqual(self.on_terminal("r.csv"), (0, "2 nurses, 3 shifts, 3 pairs\n" + alike))
        self.file("r.csv", "," + ",".join(f"x{number},X{number}" for number in range(22)) + "\nAda" + ",1" * 44 + "\n")
        self.assertTrue(self.run_words("r.csv")[2].endswith("r.csv: and 2 more of these names\n"))

    def test_bom(self):
        for encoding, bom in (("utf-8", ""), ("utf-8-sig", "\ufeff"), ("utf-16", "\ufeff")):
            pathlib.Path("r.csv").write_text("a,b,c\nAd\u00e4,x,1\n", encoding=encoding)
            self.run_words("r.csv", "--output", "p.csv", "--force")
            self.assertEqual(self.read("p.csv"), bom + "a,b,c\nAd\u00e4,x,1\n")
            self.assertEqual(self.run_words("p.csv")[:2], self.run_words("r.csv")[:2])

    def test_fixed(self):
        self.file("r.csv", SQUARE)
        self.file("f.csv", "a,b\nAda,early\n")
        self.expect(0, "least cost: 6\nAda: early, 4 (fixed)\nBen: late, 0\nCleo: night, 2\n", "", "r.csv", "--fixed",
                    "f.csv")
        self.file("f.csv", "a,b\nAda,early\nCleo,late\nBen,night\n")
        status, out, _ = self.run_words("r.csv", "--fixed", "f.csv", "--rents", "--output", "p.html")
        self.assertEqual((status, out.splitlines()[0], out.count("(fixed)"), out.count("rent")),
                         (0, "least cost: 11", 3, 0))
        self.file("w.csv", ",x\nAda,9\nBen,1\n")
        self.file("f.csv", "a,b\nAda,x\n")
        self.expect(0, "least cost: 9\nAda: x, 9 (fixed)\nwithout: Ben\n", "", "w.csv", "--fixed", "f.csv")

    def test_compare(self):
        self.file("r.csv", SQUARE)
        best = "least cost: 5\nAda: late, 1\nBen: early, 2\nCleo: night, 2\n"
        self.file("h.csv", "a,b\nAda,late\nBen,early\nCleo,night\n")
        self.expect(0, best + "h.csv: 5, as good as the best\n", "", "r.csv", "--compare", "h.csv")
        self.file("h.csv", "a,b\nCleo,night\nAda,early\nBen,late\n")
        self.expect(0, best + "h.csv: 6, 1 more than the best\n  there Ada: early, 4\n  there Ben: late, 0\n", "",
                    "r.csv", "--compare", "h.csv")
        status, out, _ = self.run_words("r.csv", "--compare", "h.csv", "--max")
        self.assertIn("h.csv: 6, 5 less than the best\n", out)
        self.file("h.csv", "a,b\nCleo,night\nAda,early\n")
        self.expect(0, best + "h.csv: breaks 2 rules\n  Ben: no object, at least 1\n  late: no person, at least "
                    "1\nh.csv: 6, 1 more than the best, which breaks none\n  there Ada: early, 4\n", "", "r.csv",
                    "--compare", "h.csv")
        self.file("f.csv", "a,b\nAda,late\n")
        self.assertIn("h.csv: breaks 2 rules\n  Ben: no object, at least 1\n  Ada, late: the fixed pair is missing\n",
                      self.run_words("r.csv", "--compare", "h.csv", "--fixed", "f.csv")[1])

    def test_rents_prove_the_plan(self):
        self.file("r.csv", SQUARE)
        _, out, _ = self.run_words("r.csv", "--rents")
        rents = [int(line.split(": ")[1]) for line in out.splitlines() if line.startswith("rent of ")]
        self.assertEqual((len(rents), min(rents)), (3, 0))
        for own, costs in zip((1, 0, 2), ((4, 1, 3), (2, 0, 5), (3, 2, 2))):
            self.assertEqual(costs[own] + rents[own], min(cost + rent for cost, rent in zip(costs, rents)))

    def test_keep(self):
        self.file("r.csv", ",x,y,z\nAda,1,1,1\nBen,1,1,1\nCleo,1,1,0\n")
        self.file("old.csv", "a,b\nAda,y\nBen,x\nEve,z\n")
        self.expect(0, "least cost: 2\nAda: y, 1\nBen: x, 1\nCleo: z, 0\nold.csv: 1 pair comes\n  Cleo: z comes\n  "
                    "Eve: z not possible now (gone)\n", "old.csv: the roster has no Eve\n", "r.csv", "--keep",
                    "old.csv")
        self.file("old.csv", "a,b\nAda,z\nBen,x\nCleo,y\n")
        self.expect(0, "least cost: 2\nAda: y, 1\nBen: x, 1\nCleo: z, 0\nold.csv: 2 pairs come, 2 go\n  Ada: z goes; y "
                    "comes\n  Cleo: y goes; z comes\n", "", "r.csv", "--keep", "old.csv")
        self.expect(0, "cost: 3, the least with changes at 1 each\nAda: z, 1\nBen: x, 1\nCleo: y, 1\nold.csv: no pair "
                    "changes\n", "", "r.csv", "--keep", "old.csv", "--change-cost", "1")
        self.file("hand.csv", "a,b\nAda,y\nBen,x\nCleo,z\n")
        self.assertIn("hand.csv: 2, 1 less than this plan\n", self.run_words(
            "r.csv", "--keep", "old.csv", "--change-cost", "1", "--compare", "hand.csv")[1])
        self.run_words("r.csv", "--keep", "old.csv", "--change-cost", "1", "--output", "p.json")
        self.assertIn("p.json: no pair changes", self.run_words("r.csv", "--keep", "p.json", "--change-cost", "1")[1])
        self.refused(2, "--change-cost needs --keep", "r.csv", "--change-cost", "1")
        for cost, text in (("-1", "'-1' is no cost from 0 on"), ("x", "'x' is no cost"),
                           ("0.5", "more decimal places than the roster's 0")):
            self.refused(3, text, "r.csv", "--keep", "old.csv", f"--change-cost={cost}")
        for content, text in (("a,b\nAda,x\nAda,y\n", "old.csv, line 3, column 1: 'Ada' a second time, after line 2"),
                              ("", "an empty file")):
            self.file("old.csv", content)
            self.refused(3, text, "r.csv", "--keep", "old.csv")
        for content in ("", "{", "[]", "{}", '{"pairs": 1}', "[" * 100000):
            self.file("s.json", content)
            self.refused(3, "s.json: no ", "r.csv", "--keep", "s.json")

    def test_others(self):
        self.file("r.csv", SQUARE)
        unique = "no other plan is as good: the next best is"
        for words, line, there in ((("--others",), "6, 1 more", ["there Ada: early, 4", "there Ben: late, 0"]),
                                   (("--others", "--max"), "9, 2 less", ["there Ada: late, 1", "there Cleo: early, 3"]),
                                   (("--others", "--fixed", "f.csv"), "11, 5 more",
                                    ["there Ben: night, 5", "there Cleo: late, 2"])):
            self.file("f.csv", "a,b\nAda,early\n")
            lines = self.run_words("r.csv", *words)[1].splitlines()
            self.assertEqual(lines[-3:], [f"{unique} {line}", *("  " + text for text in there)])
        self.file("r.csv", "nurse,shift,hours\nAda,x,1\nAda,y,2\nBen,x,2\nBen,y,3\nCleo,z,1\nDan,v,0\nDan,w,0\n")
        self.expect(0, "least hours: 5\nAda: x, 1\nBen: y, 3\nCleo: z, 1\nDan: v, 0\nunused: w\n"
                    "could change places at no cost: 2 nurses (Ada, Ben) on 2 shifts (x, y)\n"
                    "could change places at no cost: 1 nurse (Dan) on 2 shifts (v, w)\n", "", "r.csv", "--others")
        self.file("r.csv", "a,b,c\nAda,x,1\n")
        self.expect(0, "least c: 1\nAda: x, 1\nno other plan is as good\n", "", "r.csv", "--lines", "--others")
        self.refused(2, "not with --change-cost", "r.csv", "--others", "--keep", "f.csv", "--change-cost", "1")
        self.file("r.csv", ",early,late\nAda,,9\nBen,,0\nCy,,0\nDan,,\n")
        self.assertEqual(self.run_words("r.csv", "--others", "--as-many-as-can")[1].splitlines()[-1],
                         "could change places at no cost: 2 people (Ben, Cy) on 1 object (late)")

    def test_compare_with_names_that_are_gone(self):
        self.file("r.csv", SQUARE)
        self.file("h.csv", "a,b\nAda,early\nEve,late\nCleo,night\n")
        status, out, err = self.run_words("r.csv", "--compare", "h.csv")
        self.assertEqual((status, err), (0, "h.csv: the roster has no Eve\n"))
        self.assertIn("h.csv: breaks 3 rules\n  Eve, late: the roster has no Eve\n  Ben: no object, at least 1\n  "
                      "late: no person, at least 1\nh.csv: 6 for 2 pairs that the roster allows, 1 more than the best, "
                      "which breaks none\n  there Ada: early, 4\n", out)

    def test_places(self):
        self.file("r.csv", ",day,night\nAda,1,5\nBen,2,4\nCleo,3,2\nDan,1,1\n")
        self.file("c.csv", "shift,places\nnight,3\n")
        self.expect(0, "least cost: 8\nAda: day, 1\nBen: night, 4\nCleo: night, 2\nDan: night, 1\nat day: Ada\nat "
                    "night: Ben, Cleo, Dan\n", "c.csv: no line for 1 shift (day): takes one\n", "r.csv", "--places",
                    "c.csv")
        self.file("c.csv", "shift,places\nnight,3\nday,1\n")
        self.file("t.csv", "nurse,tasks\nAda,2\nDan,0\nBen,1\nCleo,1\n")
        self.expect(0, "least cost: 12\nAda: day, 1; night, 5\nBen: night, 4\nCleo: night, 2\nat day: Ada\nat night: "
                    "Ada, Ben, Cleo\n", "", "r.csv", "--places", "c.csv", "--tasks", "t.csv")
        self.file("t.csv", "nurse,tasks\nAda,3\nBen,0\nCleo,0\nDan,0\n")
        self.expect(1, "Ada must take 3 shifts, and can take at most 2: once at each shift (day, night): allow "
                    "others, or let this nurse take one fewer\nleast cost of 2 pairs: 6\nAda: day, 1; night, 5\nat "
                    "day: Ada\nat night: Ada\nwithout: Ada (2 of 3)\nunused: night (1 of 3)\n", "", "r.csv", "--places",
                    "c.csv", "--tasks", "t.csv", "--as-many-as-can")
        self.file("f.csv", "a,b\nAda,night\nBen,night\n")
        self.assertIn("Ada: night, 5 (fixed)", self.run_words("r.csv", "--places", "c.csv", "--fixed", "f.csv")[1])
        self.refused(2, "not with --places", "r.csv", "--places", "c.csv", "--rents")

    def test_standard_input_and_powers_of_ten(self):
        text = ",x,y\nAda,1.2E+03,1e1\nBen,25e-1,7\n"
        with mock.patch("sys.stdin", io.TextIOWrapper(io.BytesIO(text.encode()))):
            self.expect(0, "least cost: 12.5\nAda: y, 10.0\nBen: x, 2.5\n", "", "-")
        with mock.patch("sys.stdin", io.TextIOWrapper(io.BytesIO(b",x\nAda,-\n"))):
            self.refused(3, "standard input, line 2, column 2: '-' is no number; what forbids a pair is an empty cell",
                         "-")
        self.file("r.csv", SQUARE)
        self.refused(2, "only the roster can come from standard input", "r.csv", "--fixed", "-")
        self.file("r.csv", "a,b,c,note\nAda,x,1,y\n")
        self.refused(3, "'note' is a fourth column", "r.csv", "--lines")
        status, out, _ = self.run_words("--version")
        self.assertEqual((status, out), (0, f"nushbaret {nushbaret.__version__}\n"))

    def test_refused_places(self):
        self.file("r.csv", SQUARE)
        for content, text in (("a,b\nnoon,1\n", "c.csv, line 2, column 1: the roster has no object 'noon'"),
                              ("a,b\nlate,1\nlate,1\n", "c.csv, line 3, column 1: the name 'late' a second time"),
                              ("a,b\nlate,-1\n", "c.csv, line 2, column 2: '-1' is no whole number from 0 to 4194304"),
                              ("a,b\nlate,1.5\n", "c.csv, line 2, column 2: '1.5' is no whole number"),
                              ("a,b\nlate,4194305\n", "c.csv, line 2, column 2: '4194305' is no whole number"),
                              ("late,2\n", "c.csv, line 1, column 2: a title line must come first"),
                              ("late\n", "c.csv, line 1: each line must have a name and how many it takes"),
                              ("a,b,c\nlate,1,x\n", "c.csv, line 2, column 3: 'x' is no whole number from 0 to "
                               "4194304"), ("a,b,c\nlate,2,1\n", "c.csv, line 2, column 3: at least 2 and at most 1: "
                                            "the second number can't be less"),
                              ("a,b\nlate,1,2,3\n", "c.csv, line 2: 4 cells, where a name and one or two numbers are "
                               "needed")):
            self.file("c.csv", content)
            self.refused(3, text, "r.csv", "--places", "c.csv")
        self.file("c.csv", "a,b\nlate,1\n")
        self.refused(3, "the roster has no person 'late'", "r.csv", "--tasks", "c.csv")
        self.file("r.csv", ",late,late\nAda,1,2\n")
        self.refused(3, "--places says how many", "r.csv")

    def test_drawn_rosters(self):
        drawn = random.Random(27)
        for case in range(60):
            persons, objects = drawn.randint(1, 5), drawn.randint(1, 5)
            pairs = {(person, object_): drawn.randint(-300, 300) for person in range(persons)
                     for object_ in range(objects) if drawn.random() < 0.7}
            rows = [[f"p{person}"] + ["" if (person, object_) not in pairs else f"{pairs[person, object_] / 100:.2f}"
                                      for object_ in range(objects)] for person in range(persons)]
            text = io.StringIO()
            csv.writer(text).writerows([[""] + [f"o{object_}" for object_ in range(objects)]] + rows)
            self.file("r.csv", text.getvalue())
            with self.subTest(case=case):
                self.compare_with_search(persons, objects, pairs)

    def compare_with_search(self, persons, objects, pairs):
        count, best = fullest(persons, objects, pairs)
        status, out, err = self.run_words("r.csv", "--decimals", "2", "--as-many-as-can", "--output", "p.json",
                                          "--force")
        self.assertEqual((status, err), (0 if count == min(persons, objects) else 1, ""))
        plan = json.loads(self.read("p.json"))
        self.assertEqual((len(plan["pairs"]), round(float(plan["cost"]) * 100)), (count, best))
        self.assertEqual(len({pair["object"] for pair in plan["pairs"]}), count)
        self.assertEqual(("short" in plan), status == 1)
        if status == 1:
            for short in plan["short"]:
                self.judge_short(pairs, short)

    def judge_short(self, pairs, short):
        of_persons, of_objects = ({int(name[1:]) for name in short[side]} for side in ("persons", "objects"))
        if len(of_persons) > len(of_objects):
            self.assertEqual({object_ for person, object_ in pairs if person in of_persons} - of_objects, set())
        else:
            self.assertGreater(len(of_objects), len(of_persons))
            self.assertEqual({person for person, object_ in pairs if object_ in of_objects} - of_persons, set())


def fullest(persons, objects, pairs):
    """The most pairs that a plan can have, and the least cost of one with so many, by trying all."""
    best = (0, 0)
    for chosen in itertools.product(range(-1, objects), repeat=persons):
        had = [(person, object_) for person, object_ in enumerate(chosen) if object_ >= 0]
        if len({object_ for _, object_ in had}) == len(had) and all(pair in pairs for pair in had):
            best = min(best, (-len(had), sum(pairs[pair] for pair in had)))
    return -best[0], best[1]


class NoPlans(Runs):
    def test_sentence(self):
        self.file("r.csv", NIGHTS)
        self.file("r.csv", NIGHTS + "Eve,early,1\n")
        self.expect(1, SENTENCE + "\n", "", "r.csv")
        status, out, _ = self.run_words("r.csv", "--as-many-as-can")
        self.assertEqual(status, 1)
        self.assertEqual(out.splitlines()[:2], [SENTENCE, "least hours of 4 pairs: 6"])
        self.assertEqual(out.splitlines()[-2:], ["without: Cleo", "unused: late"])

    def test_fullest_of_the_greatest_cost(self):
        self.file("r.csv", NIGHTS + "Eve,early,1\n")
        self.run_words("r.csv", "--as-many-as-can", "--output", "p.json")
        status, out, _ = self.run_words("r.csv", "--as-many-as-can", "--max")
        self.assertEqual((status, out.splitlines()[1]), (1, "greatest hours of 4 pairs: 10"))

    def test_every_group(self):
        self.file("r.csv", ",a,b,c,d,e\nAda,1,,,,\nBen,1,,,,\nCleo,,1,,,\nDan,,1,,,\nEve,,,1,1,1\n")
        self.expect(1, "2 people (Ada, Ben) can take only 1 object between them (a): allow one of them another, or "
                    "leave one out\n2 people (Cleo, Dan) can take only 1 object between them (b): allow one of them "
                    "another, or leave one out\n", "", "r.csv")

    def test_other_shortages(self):
        cases = [(",x,y\nAda,1,2\nBen,,\n", "1 person (Ben) can take no object: allow one, or leave this person out"),
                 (",x,y\nAda,1,\nBen,1,\nCleo,,\n", "1 object (y) can go to no person: allow it to somebody, or leave "
                  "it open"), (",x,y,z\nAda,1,,\nBen,1,,\nCleo,,1,1\n", "2 people (Ada, Ben) can take only 1 object "
                               "between them (x): allow one of them another, or leave one out"),
                 (",x,y,z\nAda,1,1,\nBen,1,1,\nCleo,,,1\nDan,,,1\n", None),
                 (",x,y\nAda,1,1\nBen,,\nCleo,,\n", "2 objects (x, y) can go to only 1 person between them (Ada): "
                  "allow one of them to another, or leave one open")]
        for content, wanted in cases:
            with self.subTest(wanted=wanted):
                self.file("r.csv", content)
                self.expect(1 if wanted else 0, wanted + "\n" if wanted else "least cost: 3\nAda: x, 1\nBen: y, 1\n"
                            "Cleo: z, 1\nwithout: Dan\n" + OTHERS, "", "r.csv")

    def test_sentences_of_larger_groups(self):
        self.file("r.csv", ",x,y\nAda,1,1\nBen,1,1\n")
        roster = read_roster("r.csv", None, None, False)
        for short, wanted in ((ShortGroup([0, 1], [], False, 2, 0), "2 people (Ada, Ben) can take no object: allow "
                               "each one, or leave them out"),
                              (ShortGroup([], [0, 1], True, 2, 0), "2 objects (x, y) can go to no person: allow each "
                               "to somebody, or leave them open"),
                              (ShortGroup([0, 1, 1], [0], False, 3, 1), "3 people (Ada, Ben, Ben) can take only 1 "
                               "object between them (x): allow 2 of them another, or leave 2 out")):
            self.assertEqual(without_marks(sentence(roster, short, False)), wanted)

    def test_fixed_pairs_leave_too_little(self):
        self.file("r.csv", ",x,y\nAda,1,2\nBen,1,\n")
        self.file("f.csv", "a,b\nAda,x\n")
        status, out, _ = self.run_words("r.csv", "--fixed", "f.csv")
        self.assertEqual((status, out.split(":")[0]), (1, "around the fixed pairs, 1 person (Ben) can take no object"))

    def test_many_names_are_cut(self):
        names = [f"p{number}" for number in range(30)]
        self.assertEqual(listed(names, list(range(20))), ", ".join(names[:20]))
        self.assertEqual(listed(names, list(range(1, 23))), ", ".join(names[1:21]) + " and 2 more")

    def test_outputs(self):
        self.file("r.csv", NIGHTS + "Eve,early,1\n")
        self.expect(1, SENTENCE + "\np.csv isn't written: there is no plan\n", "", "r.csv",
                    "--output", "p.csv", "--output", "p.json", "--html", "page")
        self.assertEqual(sorted(os.listdir()), ["p.json", "page", "r.csv"])
        self.assertEqual(json.loads(self.read("p.json")), {"format": 4, "sense": "min", "short": [{
            "persons": ["Ben", "Cleo", "Dan"], "objects": ["night", "weekend"], "sentence": SENTENCE}]})

    def test_plurals(self):
        words = {"shift": "shifts", "shifts": "shifts", "day": "days", "person": "people", "Schicht": "Schicht",
                 "Pflegekraft": "Pflegekraft"}
        self.assertEqual({word: plural(word) for word in words}, words)


class SilentFailures(Runs):
    """What a line of awk gets wrong without a word: each is read as it is meant, or refused."""

    def test_quoted_names(self):
        self.file("r.csv", 'who,what,cost\n"Smith, Ada","early ""A""",2.50\n')
        self.expect(0, 'least cost: 2.5\nSmith, Ada: early "A", 2.5\n', "", "r.csv")

    def test_decimal_comma(self):
        self.file("r.csv", "who;what;cost\nAda;early;2,50\n")
        self.refused(3, "r.csv, line 2, column 3: '2,50' is no number", "r.csv")
        self.expect(0, "least cost: 2,5\nAda: early, 2,5\n", "", "r.csv", "--decimal-comma")

    def test_empty_cell(self):
        self.file("r.csv", "who,what,cost\nAda,early,\nAda,late,3\n")
        self.refused(3, "r.csv, line 2, column 3: '' is no number", "r.csv")

    def test_nobody_is_made_up(self):
        self.file("r.csv", "who,what,cost\nAda,early,1\nBen,early,2\nAda,late,5\nAda,night,1\nBen,late,1\n")
        self.expect(0, "least cost: 2\nAda: early, 1\nBen: late, 1\nunused: night\n" + OTHERS, "", "r.csv",
                    "--decimals", "0")

    def test_two_rosters_in_a_folder(self):
        self.file("a.csv", "who,what,cost\nAda,early,1\n")
        self.file("b.csv", "who,what,cost\nBen,late,2\n")
        first = self.run_words("a.csv")
        self.expect(0, "least cost: 2\nBen: late, 2\n", "", "b.csv")
        self.assertEqual((self.run_words("a.csv"), sorted(os.listdir())), (first, ["a.csv", "b.csv"]))


class Outputs(Runs):
    def test_round_of_names(self):
        names = ['O"Neil', "a,b", "c;d", "Zo\u00eb", "<b>&amp;", "=1+1", "x y"]
        text = io.StringIO()
        csv.writer(text).writerows([["who", "what", "much"]] + [
            [who, what + "!", f"{(first * 5 + second * 3) % 7}.5"]
            for first, who in enumerate(names) for second, what in enumerate(names)])
        self.file("r.csv", text.getvalue())
        _, first, _ = self.run_words("r.csv", "--output", "p.csv", "--output", "p.json")
        _, again, _ = self.run_words("p.csv")
        self.assertEqual(again, first)
        self.assertEqual(self.run_words("r.csv", "--fixed", "p.csv")[1].replace(" (fixed)", ""), first)
        self.assertIn("as good as the best", self.run_words("r.csv", "--compare", "p.csv")[1])
        self.assertEqual({pair["person"] for pair in json.loads(self.read("p.json"))["pairs"]}, set(names))

    def test_titles_with_other_separators(self):
        self.file("r.csv", '"a;b;c;d",what,"e;f"\nAda,x,1.5\nBen,x,1.5\nBen,y,1\n')
        _, first, _ = self.run_words("r.csv", "--output", "p.csv")
        self.assertEqual(self.run_words("p.csv")[:2], (0, first))

    def test_force_keeps_what_the_file_is(self):
        self.file("r.csv", SQUARE)
        self.file("p.csv", "old")
        os.chmod("p.csv", 0o640)
        os.symlink("p.csv", "link.csv")
        self.assertEqual(self.run_words("r.csv", "--output", "link.csv", "--force")[0], 0)
        self.assertTrue(os.path.islink("link.csv") and self.read("p.csv").startswith("person,"))
        self.assertEqual(os.stat("p.csv").st_mode & 0o777, 0o640)
        os.mkdir("folder.csv")
        os.mkfifo("pipe.csv")
        for name in ("folder.csv", "pipe.csv"):
            self.refused(4, f"{name} is no regular file", "r.csv", "--output", name, "--force")
        self.run_words("r.csv", "--output", "new.csv")
        self.run_words("r.csv", "--output", "other.csv", "--force")
        self.assertEqual(os.stat("new.csv").st_mode, os.stat("other.csv").st_mode)

    def test_existing_output(self):
        self.file("r.csv", SQUARE)
        self.file("p.csv", "old")
        self.refused(4, "p.csv exists: --force overwrites it", "r.csv", "--output", "p.csv")
        self.refused(4, "p.csv exists", "r.csv", "--output", "p.json", "--output", "p.csv")
        self.assertEqual(self.read("p.csv"), "old")
        self.assertEqual(self.run_words("r.csv", "--output", "p.csv", "--force")[0], 0)
        self.assertEqual(self.read("p.csv"), "person,object,cost\nAda,late,1\nBen,early,2\nCleo,night,2\n")
        self.assertEqual(sorted(os.listdir()), ["p.csv", "r.csv"])

    def test_nothing_is_written_on_a_refusal(self):
        self.file("bad.csv", SQUARE + "Dan,1,x,3\n")
        self.refused(3, "bad.csv, line 5, column 3: 'x' is no number", "bad.csv", "--output", "p.csv", "--html",
                     "p.html")

    def test_json_has_points(self):
        self.file("r.csv", "a;b;c\nAda;x;2,5\n")
        self.run_words("r.csv", "--decimal-comma", "--output", "p.json")
        plan = json.loads(self.read("p.json"))
        self.assertEqual((plan["cost"], plan["pairs"][0]["cost"], plan["rents"]), ("2.5", "2.5", {"x": "0.0"}))

    def test_output_that_comes_meanwhile(self):
        self.file("p.csv", "old")
        with self.assertRaises(OutputFault):
            write_file("p.csv", b"new", False)
        self.assertEqual(self.read("p.csv"), "old")

    def test_page(self):
        self.file("r.csv", SQUARE)
        self.run_words("r.csv", "--html", "p.html")
        page = parsed(self.read("p.html"))
        self.assertEqual([cell for cell, kinds in page.cells if "own" in kinds], ["1", "2", "2"])
        self.assertEqual(len([cell for cell, kinds in page.cells if any(kind[:1] == "s" for kind in kinds)]), 9)

    def test_page_of_a_shortage(self):
        self.file("<i>.csv", NIGHTS.replace("Ben", "<b>Ben</b>") + "Eve,early,1\n")
        self.run_words("<i>.csv", "--as-many-as-can", "--html", "p.html")
        page = parsed(self.read("p.html"))
        self.assertEqual(page.short, ["night", "weekend", "<b>Ben</b>", "Cleo", "Dan"])
        edges = [sum(edge in kinds for _, kinds in page.cells) for edge in ("top", "bottom", "left", "right")]
        self.assertEqual(edges, [2, 2, 3, 3])
        self.assertNotIn("b", page.tags)

    def test_page_of_several_shortages(self):
        self.file("r.csv", ",a,b,c,d,e\nAda,1,,,,\nBen,1,,,,\nCleo,,1,,,\nDan,,1,,,\nEve,,,1,1,1\n")
        self.run_words("r.csv", "--html", "p.html")
        page = parsed(self.read("p.html"))
        self.assertEqual(page.short, ["a", "b", "Ada", "Ben", "Cleo", "Dan"])
        framed = [place for place, (_, kinds) in enumerate(page.cells) if "left" in kinds and "right" in kinds]
        self.assertEqual(framed, [0, 5, 11, 16])
        self.assertEqual([place for place, (_, kinds) in enumerate(page.cells) if "top" in kinds], [0, 11])
        self.file("r.csv", ",a,b,c\nAda,1,1,\nBen,1,,\nCleo,,1,\n")
        self.run_words("r.csv", "--html", "p.html", "--force")
        page = parsed(self.read("p.html"))
        self.assertEqual((page.short, len(page.cells)), (["a", "b", "Ada", "Ben", "Cleo"], 9))
        for content, wanted in ((",a,b\nAda,1,1\nBen,,\n", (["Ben"], [0, 1])),
                                (",a,b\nAda,1,\nBen,1,\nCleo,1,\n", (["b"], [0]))):
            self.file("r.csv", content)
            self.run_words("r.csv", "--html", "p.html", "--force")
            page = parsed(self.read("p.html"))
            self.assertEqual((page.short, [place for place, (_, kinds) in enumerate(page.cells) if "top" in kinds]),
                             wanted)

    def test_page_of_places(self):
        self.file("r.csv", "nurse,shift,hours\nAda,S10,1\nAda,S2,2\nBen,S2,4\nBen,S1,9\n")
        self.file("c.csv", "a,b\nS2,2\n")
        self.file("t.csv", "a,b\nAda,2\n")
        self.run_words("r.csv", "--places", "c.csv", "--tasks", "t.csv", "--html", "p.html")
        page = parsed(self.read("p.html"))
        self.assertEqual([cell for cell, _ in page.cells[:10]],
                         ["Ada", "S10S2", "12", "Ben", "S2", "4", "S10", "Ada", "S2", "AdaBen"])
        self.assertIn("<td>S10<br>S2</td><td>1<br>2</td>", self.read("p.html"))
        self.assertEqual([cell for cell, _ in page.cells[10:]], ["", "2", "1", "9", "4", ""])
        self.assertIn("<details><summary>unused: 1 shift</summary><p>S1</p></details>",
                      without_names(self.read("p.html")))

    def test_wide_page(self):
        drawn = random.Random(3)
        self.file("r.csv", "," + ",".join(f"S{number}" for number in range(3000)) + "\n" + "".join(
            f"p{number}," + ",".join(str(drawn.randrange(1000)) for _ in range(3000)) + "\n" for number in range(80)))
        self.run_words("r.csv", "--html", "p.html")
        self.assertLess(os.path.getsize("p.html"), 10**6)
        page = parsed(self.read("p.html"))
        self.assertEqual(len(page.cells), 80 * 80 + 3 * 80)
        self.assertIn("unused: 2920 objects", self.read("p.html"))

    def test_large_page(self):
        for size in (30, 500):
            self.file("r.csv", square(size))
            self.assertEqual(self.run_words("r.csv", "--html", "p.html", "--force")[0], 0)
            page = parsed(self.read("p.html"))
            self.assertEqual(len([1 for _, kinds in page.cells if "own" in kinds]), size)
            self.assertEqual(len(page.cells), size * size + 3 * size)
        with mock.patch("nushbaret.roster.output.page.MOST_CELLS", 899):
            self.run_words("r.csv", "--html", "q.html")
        self.assertIn("isn't drawn", self.read("q.html"))


class Statuses(Runs):
    def test_words(self):
        self.file("r.csv", SQUARE)
        hint = " (nushbaret --help lists all options)"
        for words, line in (((), "the file of a roster is needed" + hint),
                            (("r.csv", "--lines", "--matrix"), "--matrix: not allowed with argument --lines" + hint),
                            (("r.csv", "--decimals", "7"), "--decimals: '7' is no number from 0 to 6" + hint),
                            (("r.csv", "--decimals", "x"), "--decimals: 'x' is no number from 0 to 6" + hint),
                            (("r.csv", "--output", "p.txt"), "-o/--output: 'p.txt' ends in none of .csv, .json, .html "
                             "and .xlsx" + hint), (("r.csv", "s.csv"),
                                                   "one roster at a time, and there is also s.csv" + hint),
                            (("r.csv", "--output"), "-o/--output: expected one argument" + hint),
                            (("r.csv", "--output", "r.csv", "--force"), "r.csv is named twice, or is read too"),
                            (("r.csv", "--output", "p.csv", "--html", "./p.csv"),
                             "./p.csv is named twice, or is read too")):
            with self.subTest(words=words):
                self.expect(2, "", f"nushbaret: {line}\n", *words)
        status, out, _ = self.run_words("--help")
        self.assertEqual(status, 0)
        for option in parser_of()._option_string_actions:
            self.assertIn(option, out)

    def test_refused_plans(self):
        self.file("r.csv", NIGHTS)
        for content, text in (("a,b\nBen,early\n", "f.csv, line 2: Ben, early is a forbidden pair"),
                              ("a,b\nBen,night\nBen,weekend\n", "f.csv, line 3, column 1: 'Ben' a second time"),
                              ("a,b\nBen,night\nDan,night\n", "f.csv, line 3, column 2: 'night' a second time"),
                              ("a,b\nEve,night\n", "f.csv, line 2, column 1: the roster has no person 'Eve'")):
            self.file("f.csv", content)
            self.refused(3, text, "r.csv", "--fixed", "f.csv")

    def test_files(self):
        self.file("r.csv", SQUARE)
        for words in (("none.csv",), (".",), ("r.csv", "--fixed", "none.csv"), ("r.csv", "--compare", "none.csv"),
                      ("r.csv", "--keep", "none.csv"), ("r.csv", "--places", "none.csv"),
                      ("r.csv", "--tasks", "none.csv"), ("r.csv", "--output", "none/p.csv"),
                      ("r.csv", "--output", "none/p.csv", "--force")):
            with self.subTest(words=words):
                self.refused(4, "none" if len(words) > 1 or words[0] != "." else "", *words)

    def test_no_library_and_no_memory(self):
        self.file("r.csv", SQUARE)
        with mock.patch.dict(library._calls, clear=True), mock.patch.object(library, "PATHS", ()):
            self.refused(4, "c/build.sh", "r.csv", "--output", "p.csv")
        with mock.patch("nushbaret.roster.answer.best_plan", side_effect=MemoryError):
            self.refused(4, "memory refused", "r.csv", "--output", "p.csv")

    @unittest.skipIf("NUSHBARET_EMULATED" in os.environ, "an emulator takes more memory")
    def test_memory_refused_by_a_limit(self):
        """With a little more address space than the command takes for a short roster, it refuses one whose text alone
        is longer."""
        self.file("few.csv", SQUARE)
        measured = ("from nushbaret.roster.command import main; main(['few.csv']); "
                    "print(*(line.split()[1] for line in open('/proc/self/status') if line.startswith('VmPeak')))")
        few = int(subprocess.check_output([sys.executable, "-c", measured], env=environment()).split()[-1])
        limit = few + 2048
        self.assertEqual(shell(f"ulimit -v {limit}; N few.csv --output few.json")[0], 0)
        self.file("r.csv", SQUARE + "\n" * (limit * 1024))
        self.assertEqual(shell(f"ulimit -v {limit}; N r.csv --output p.csv"), (4, "", "memory refused\n"))
        self.assertEqual(sorted(os.listdir()), ["few.csv", "few.json", "r.csv"])

    def test_as_a_program(self):
        self.file("r.csv", SQUARE.replace("Ada", "Ad\u00e4"))
        ended = program("r.csv", stdout=subprocess.PIPE)
        self.assertEqual((ended.returncode, ended.stderr, ended.stdout.splitlines()[0]), (0, b"", b"least cost: 5"))
        self.file("n.csv", NIGHTS + "Eve,early,1\n")
        self.assertEqual(program("n.csv", stdout=subprocess.PIPE).returncode, 1)
        self.assertEqual(program(stdout=subprocess.PIPE).returncode, 2)
        for closing, status in ((">&-", 4), ("2>&-", 0)):
            self.assertEqual(shell(f"N r.csv {closing}")[0], status)
        self.assertEqual(shell("N none.csv 2>&-")[:2], (4, ""))
        with open("/dev/full", "wb") as full:
            ended = program("r.csv", stdout=full)
        self.assertEqual((ended.returncode, ended.stderr), (4, b"standard output: No space left on device\n"))


class Examples(unittest.TestCase):
    """The sessions on the page run as written, at the top of the repository."""

    def test_sessions(self):
        page = (TOP / "docs" / "ROSTERS.md").read_text(encoding="utf-8")
        blocks = [line[4:] for line in page.splitlines() if line.startswith("    ")]
        count = 0
        with tempfile.TemporaryDirectory() as folder:
            for name in ("python", "examples", "c"):
                os.symlink(TOP / name, os.path.join(folder, name))
            first = sessions(blocks)[0][0]
            for words, wanted in sessions(blocks):
                with self.subTest(words=words):
                    ended = subprocess.run(["bash", "-c", first + "; " + words], cwd=folder,
                                           stdout=subprocess.PIPE, stderr=subprocess.STDOUT)
                    self.assertEqual(ended.stdout.decode(), wanted)
                    count += 1
        self.assertGreater(count, 5)


def sessions(lines):
    """The commands among lines, each with what stands below it."""
    found = []
    for line in lines:
        if line.startswith("$ "):
            found.append((line[2:], ""))
        elif found:
            found[-1] = (found[-1][0], found[-1][1] + line + "\n")
    return found


if __name__ == "__main__":
    unittest.main()
