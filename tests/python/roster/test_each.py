"""Pages and calendars for each person: their content, their names, times of day, and what is refused."""
import os
import pathlib
import re
import unittest
from datetime import date, datetime, time, timedelta

from nushbaret.roster.output.calendar import Event, calendar
from nushbaret.roster.output.each import file_names
from nushbaret.roster.dates import Times
from commands import Runs, parsed, without_names
from optional import openpyxl

ROSTER = ("nurse,shift,points\nAda,early Mon,1\nAda,night Tue,2\nAda,early Wed,9\nBen,early Mon,5\nBen,early "
          "Wed,1\nBen,night Tue,7\nCleo,office,1\n")
DAYS = ("shift,day,from,to\nearly Mon,Mo 01.03.2027,06:00,14:30\nnight Tue,Di 02.03.,21:30,6:30\nearly Wed,Mi "
        "03.03.,,\n")


def components(data):
    """The components of a calendar, each as its name and its properties; the rules for lines are kept."""
    text = data.decode()
    assert text.endswith("\r\n") and "\n" not in text.replace("\r\n", "")
    assert all(len(line.encode()) <= 75 for line in text.split("\r\n"))
    lines = text.replace("\r\n ", "").split("\r\n")[:-1]
    assert (lines[0], lines[-1]) == ("BEGIN:VCALENDAR", "END:VCALENDAR")
    found, open_ = [("VCALENDAR", {})], ["VCALENDAR"]
    for line in lines[1:]:
        key, _, value = line.partition(":")
        if key == "BEGIN":
            open_.append(value)
            found.append((value, {}))
        elif key == "END":
            assert open_.pop() == value
        else:
            properties = found[0 if len(open_) == 1 else -1][1]
            assert key not in properties, key
            properties[key] = value
    assert not open_
    return found


class Files(Runs):
    def setUp(self):
        super().setUp()
        self.file("r.csv", ROSTER)
        self.file("g.csv", DAYS)
        self.words = ("r.csv", "--groups", "g.csv", "--tasks", "t.csv")
        self.file("t.csv", "nurse,least,most\nAda,1,2\nBen,1,2\nCleo,0,1\n")

    def held(self):
        return {path.name: path.read_bytes() for path in pathlib.Path("out").iterdir()}

    def test_each(self):
        status, out, err = self.run_words(*self.words, "--each", "out")
        self.assertEqual((status, out.splitlines()[-1], err), (0, "out: the calendars leave out what has no day: "
                                                               "office", ""))
        held = self.held()
        self.assertEqual(sorted(held), ["Ada.html", "Ada.ics", "Ben.html", "Ben.ics", "Cleo.html", "Cleo.ics"])
        frame, one, other = components(held["Ada.ics"])
        self.assertEqual((frame[1]["VERSION"], frame[1]["X-WR-CALNAME"]), ("2.0", "Ada"))
        self.assertTrue(frame[1]["PRODID"])
        self.assertEqual([(kind, own["DTSTART"], own["DTEND"], own["SUMMARY"], own["DTSTAMP"])
                          for kind, own in (one, other)],
                         [("VEVENT", "20270301T060000", "20270301T143000", "early Mon", "20270301T000000Z"),
                          ("VEVENT", "20270302T213000", "20270303T063000", "night Tue", "20270302T000000Z")])
        _, event = components(held["Ben.ics"])
        self.assertEqual((event[1]["DTSTART;VALUE=DATE"], event[1]["DTEND;VALUE=DATE"]), ("20270303", "20270304"))
        _, free = components(held["Cleo.ics"])
        self.assertEqual((free[0], sorted(free[1])), ("VFREEBUSY", ["DTSTAMP", "UID"]))

    def test_pages(self):
        self.run_words(*self.words, "--each", "out")
        for name in ("Ada", "Ben", "Cleo"):
            text = self.read(f"out/{name}.html")
            parsed(text)
            self.assertIn(f'<title lang="">{name}</title>', text)
            for other in {"Ada", "Ben", "Cleo", "points"} - {name}:
                self.assertNotIn(other, text.partition("<body>")[2])
        body = without_names(self.read("out/Ada.html")).partition("<body>")[2]
        self.assertIn('<caption lang="en">day Mo 01.03.2027 to Mi 03.03.</caption>', body)
        self.assertIn('<tr><th scope="row">Mo 01.03.2027</th><td>early Mon</td><td>06:00\u201314:30</td></tr>\n'
                      '<tr><th scope="row">Di 02.03.</th><td>night Tue</td><td>21:30\u201306:30 (+1)</td></tr>\n'
                      '<tr class="totals"><th scope="row" lang="en">total</th><td>2</td><td></td></tr>\n', body)
        self.assertIn("<td>office</td>", self.read("out/Cleo.html"))

    def test_same_bytes(self):
        """The same plan gives the same files; another one gives its other shifts other events, and keeps the old
        ones' names."""
        self.run_words(*self.words, "--each", "out")
        before = self.held()
        self.assertEqual(self.run_words(*self.words, "--each", "out")[0], 4)
        self.assertEqual(self.run_words(*self.words, "--each", "out", "--force")[0], 0)
        self.assertEqual(self.held(), before)
        self.run_words(*self.words, "--each", "out", "--force", "--max")
        after = self.held()
        ids = [{own["UID"] for files in (before, after) for name in files if name.endswith(".ics")
                for _, own in components(files[name])[1:]}]
        shifts = {(name, own.get("SUMMARY")) for files in (before, after) for name in files if name.endswith(".ics")
                  for _, own in components(files[name])[1:]}
        self.assertEqual(len(ids[0]), len(shifts))

    def test_what_is_gone_is_cancelled(self):
        """A replanned month cancels events of the folder's older file, in a version above its own; the same plan again
        gives the same bytes, and what comes back is live."""
        def versions(name):
            return {own["UID"]: (own.get("STATUS"), own.get("SEQUENCE"))
                    for _, own in components(self.held()[name])[1:]}
        self.run_words(*self.words, "--each", "out")
        first = self.held()
        self.run_words(*self.words, "--each", "out", "--force", "--max")
        before = {own["UID"] for _, own in components(first["Ada.ics"])[1:]}
        after = versions("Ada.ics")
        gone = {uid for uid, (status, _) in after.items() if status == "CANCELLED"}
        self.assertTrue(gone and gone <= before <= set(after))
        self.assertEqual({number for _, number in after.values()}, {"1"})
        same = self.held()
        self.run_words(*self.words, "--each", "out", "--force", "--max")
        self.assertEqual(self.held(), same)
        self.run_words(*self.words, "--each", "out", "--force")
        back = versions("Ada.ics")
        self.assertEqual({uid for uid, (status, _) in back.items() if status is None}, before)
        self.assertEqual({number for _, number in back.values()}, {"2"})

    def test_changes(self):
        self.file("k.csv", "a,b\nAda,early Wed\nBen,early Mon\n")
        self.run_words(*self.words, "--keep", "k.csv", "--each", "out")
        body = self.read("out/Ada.html").partition("<body>")[2]
        self.assertIn('<tr class="changed"><th scope="row">Mo 01.03.2027</th><td>early Mon <small '
                      'lang="en">new</small></td>', body)
        self.assertIn('<tr class="changed"><th scope="row">Mi 03.03.</th><td><s>early Wed</s></td><td></td></tr>', body)

    def test_without_dates(self):
        self.file("g.csv", "shift,day\nearly Mon,Mon\nnight Tue,Tue\nearly Wed,Wed\n")
        self.assertEqual(self.run_words(*self.words, "--each", "out", "-q")[1],
                         "least points: 5\nout: no calendars are written: Mon is no date\n")
        self.assertEqual(sorted(self.held()), ["Ada.html", "Ben.html", "Cleo.html"])
        self.assertEqual(self.run_words("r.csv", "--each", "one", "-q")[1].splitlines()[-1],
                         "one: no calendars are written: there are no groups")
        self.assertIn("<td>office</td>", self.read("one/Cleo.html"))

    def test_nothing_to_do(self):
        self.file("t.csv", "nurse,least,most\nAda,1,2\nBen,1,2\nCleo,0,0\n")
        self.file("p.csv", "shift,least,most\noffice,0,1\n")
        self.assertEqual(self.run_words(*self.words, "--places", "p.csv", "--each", "out")[0], 0)
        self.assertIn("<p>no shift</p>", without_names(self.read("out/Cleo.html")))

    def test_refusals(self):
        os.mkdir("out")
        self.file("out/Ben.ics", "mine")
        self.assertEqual(self.run_words(*self.words, "--each", "out"), (4, "", "out/Ben.ics exists: --force overwrites "
                                                                        "it\n"))
        self.assertEqual(os.listdir("out"), ["Ben.ics"])
        self.assertEqual(self.run_words(*self.words, "--each", "r.csv")[::2], (4, "r.csv: no folder\n"))
        self.assertEqual(self.run_words(*self.words, "--each", "r.csv/x")[::2], (4, "r.csv/x: no folder\n"))
        self.assertEqual(self.run_words(*self.words, "--each", "out", "--html", "out/Ada.html", "--force")[::2],
                         (4, "out/Ada.html is another output too\n"))
        self.assertEqual(self.read("out/Ben.ics"), "mine")
        self.file("t.csv", "nurse,least,most\nAda,3,3\nBen,3,3\n")
        status, out, _ = self.run_words(*self.words, "--each", "new")
        self.assertEqual((status, out.splitlines()[-1]), (1, "new: nothing is written: there is no plan"))
        self.assertFalse(os.path.exists("new"))

    def test_folders_are_made(self):
        self.assertEqual(self.run_words(*self.words, "--each", "a/b/c")[0], 0)
        self.assertEqual(len(os.listdir("a/b/c")), 6)

    def test_names_of_other_folders(self):
        self.file("r.csv", "nurse,shift,points\n../../Ada,x,1\n/etc/passwd,y,1\nada,z,1\nAda,v,1\n")
        self.run_words("r.csv", "--each", "out/in")
        self.assertEqual(sorted(os.listdir("out/in")), ["Ada 2.html", "_.._Ada.html", "_etc_passwd.html", "ada.html"])
        self.assertEqual(os.listdir("out"), ["in"])


class Names(unittest.TestCase):
    def test_they_differ(self):
        names = ["Ada", "ada", "ADA 2", "Ada.", " Ada", "A/B", "A:B", "A_B", "CON", "nul.txt", "", "..", ".", "-rf",
                 "~x", "\u202eevil", "Stra\u00dfe", "STRASSE", "caf\u00e9", "cafe\u0301", "x" * 300, "x" * 301,
                 "\u00e4" * 300]
        found = file_names(names)
        self.assertEqual(len({name.casefold() for name in found}), len(names))
        for name in found:
            self.assertNotRegex(name, r'[<>:"/\\|?*\x00-\x1f]|^[-~. ]|[. ]$')
            self.assertTrue(0 < len(name.encode()) < 220 and name.isprintable(), name)
        self.assertEqual(found[:9], ["Ada", "ada 2", "ADA 2 2", "Ada 3", "Ada 4", "A_B", "A_B 2", "A_B 3", "_CON"])

    def test_plain_names_stay(self):
        names = ["M\u00fcller, Eva", "O'Neill", "Ada (night)", "\u5f20\u4f1f"]
        self.assertEqual(file_names(names), names)


class Calendars(unittest.TestCase):
    def test_long_and_odd_texts(self):
        label = "a; b, c\\d \u00e4\u00f6\u00fc \u5f20\u4f1f " * 9
        data = calendar("Kurz, Ida", [Event("o", label, date(2027, 3, 1), None)], date(2027, 3, 1))
        frame, event = components(data)
        self.assertEqual(frame[1]["X-WR-CALNAME"], "Kurz\\, Ida")
        self.assertEqual(re.sub(r"\\(.)", r"\1", event[1]["SUMMARY"]), label)

    def test_days_of_all_lengths(self):
        for begin in range(0, 1440, 30):
            for end in (0, 30, 360, 1430, 1440):
                times = Times(begin, end if end > begin else end + 1440)
                _, event = components(calendar("p", [Event("o", "l", date(2028, 2, 28), times)], date(2028, 2, 28)))
                start, stop = (datetime.strptime(event[1][key], "%Y%m%dT%H%M%S") for key in ("DTSTART", "DTEND"))
                self.assertEqual(start, datetime(2028, 2, 28) + timedelta(minutes=begin))
                self.assertTrue(timedelta() < stop - start <= timedelta(days=1), times)
                self.assertEqual((stop.hour * 60 + stop.minute) % 1440, end % 1440)


class TimesOfDay(Runs):
    def setUp(self):
        super().setUp()
        self.file("r.csv", ",x,y\nAda,1,\nBen,,1\n")

    def test_days_at_the_end_of_all(self):
        """Some programs write an open end so."""
        for day in "9999-12-26", "9999-12-31":
            self.file("g.csv", f"o,day\nx,2027-03-06\ny,{day}\n")
            self.assertEqual(self.run_words("r.csv", "--groups", "g.csv", "--each", "out", "--html", "p.html",
                                            "--force")[0], 0)

    def test_forms(self):
        for cells, shown in (("06:00,14:30", "06:00\u201314:30"), ("6:05,24:00", "06:05\u201324:00"),
                             ("22:00,06:00", "22:00\u201306:00 (+1)"), ("08:00,08:00", "08:00\u201308:00 (+1)"),
                             ("06:00:00,14:30:00", "06:00\u201314:30"), ("18:00,0:00", "18:00\u201324:00")):
            self.file("g.csv", f"o,day,note,From,To\nx,2027-03-01,,{cells}\ny,2027-03-01,,,\n")
            with self.subTest(cells=cells):
                self.assertEqual(self.run_words("r.csv", "--groups", "g.csv", "--each", "out", "--force")[0], 0)
                self.assertIn(f"<td>{shown}</td>", self.read("out/Ada.html"))
                self.assertNotIn("time", self.read("out/Ben.html").partition("<body>")[2])

    @unittest.skipUnless(openpyxl, "openpyxl isn't installed")
    def test_cells_of_a_workbook(self):
        book = openpyxl.Workbook()
        for row in (["o", "day", "from", "to"], ["x", date(2027, 3, 1), time(6), time(14, 30)],
                    ["y", date(2027, 3, 2), time(22), time(0)]):
            book.active.append(row)
        book.save("g.xlsx")
        self.assertEqual(self.run_words("r.csv", "--groups", "g.xlsx", "--each", "out")[0], 0)
        events = [components(pathlib.Path(f"out/{name}.ics").read_bytes())[1][1] for name in ("Ada", "Ben")]
        self.assertEqual([(event["DTSTART"], event["DTEND"]) for event in events],
                         [("20270301T060000", "20270301T143000"), ("20270302T220000", "20270303T000000")])

    def test_refusals(self):
        for content, text in (("o,day,from,to\nx,2027-03-01,6,14:00\n", "g.csv, line 2, column 3: '6' is no time of "
                               "day such as 06:00"), ("o,day,from,to\nx,2027-03-01,06:00,\n",
                                                      "g.csv, line 2, column 4: '' is no time of day such as 06:00"),
                              ("o,day,from,to\nx,2027-03-01,24:00,06:00\n", "g.csv, line 2, column 3: '24:00' is no "
                               "time of day such as 06:00"),
                              ("o,day,to,from\nx,2027-03-01,24:01,06:00\n", "g.csv, line 2, column 3: '24:01' is no "
                               "time of day such as 06:00"),
                              ("o,day,from,to\nx,2027-03-01,06:60,07:00\n", "g.csv, line 2, column 3: '06:60' is no "
                               "time of day such as 06:00"),
                              ("o,day,from\nx,2027-03-01,06:00\n", "g.csv, line 1: a column titled 'from' needs one "
                               "titled 'to'"), ("o,day,to\nx,2027-03-01,06:00\n", "g.csv, line 1: a column titled 'to' "
                                                "needs one titled 'from'"),
                              ("o,day,from,from,to\nx,2027-03-01,06:00,06:00,07:00\n", "g.csv, line 1: 2 columns are "
                               "titled 'from', where 'to' needs one")):
            self.file("g.csv", content)
            with self.subTest(content=content):
                self.refused(3, text, "r.csv", "--groups", "g.csv", "--each", "out")


if __name__ == "__main__":
    unittest.main()
