"""Names that are dates, and those that aren't."""
import random
import unittest
from datetime import date, timedelta

from nushbaret.roster.dates import DAY_NAMES, dates_of, has_weekday, monday_of, weekends_among


class Reading(unittest.TestCase):
    def expect(self, names, dates):
        self.assertEqual(dates_of(names).all, [date(*one) for one in dates])

    def refused(self, names, why):
        """Where one name is no date, it is the one with which the words begin."""
        name = "" if why.startswith(("no date has", "there are")) else why.partition(" is ")[0]
        self.assertEqual(dates_of(names), (None, why, name))

    def test_forms(self):
        self.expect(["2027-03-01", "01.03.2027", "1.3.2027", "Mo 01.03.", "Mon, 2027-03-01", "Mo. 1. 3. 2027",
                     "01.03.2027 (Mo)", "lun 1.3"], [(2027, 3, 1)] * 8)

    def test_years(self):
        """A date without a year is near to those with one, also across the end of a year."""
        self.expect(["Mo 28.12.2026", "Do 31.12.", "Fr 01.01.", "02.01."],
                    [(2026, 12, 28), (2026, 12, 31), (2027, 1, 1), (2027, 1, 2)])
        self.expect(["01.01.2027", "31.12."], [(2027, 1, 1), (2026, 12, 31)])
        self.expect(["28.02.2028", "29.02."], [(2028, 2, 28), (2028, 2, 29)])

    def test_no_dates(self):
        self.refused(["Mon", "Tue"], "Mon is no date")
        self.refused(["Mo 01.03.", "Di 02.03."], "no date has a year: Mo 01.03.")
        self.refused(["2027-03-01", "reserve"], "reserve is no date")
        self.refused(["early 2027-03-01", "late 2027-03-01"], "early 2027-03-01 is no date")
        self.refused(["2027-02-29"], "2027-02-29 is no day of the calendar")
        self.refused(["2027-03-01", "29.02."], "29.02. is no day of the calendar")
        self.refused(["2027-03-01", "2027-13-01"], "2027-13-01 is no day of the calendar")
        for far in "0999-12-31", "9999-12-27", "9999-12-31":
            self.refused(["2027-03-01", far], f"{far} is no day of the calendar")
        self.refused(["2027-03-01", "Mo 02.03."], "Mo 02.03. is a Tue")
        self.refused([], "there are none")

    def test_each_day_of_some_years(self):
        draw = random.Random(1)
        for _ in range(500):
            day = date(2024, 1, 1) + timedelta(days=draw.randrange(2000))
            names = [f"{DAY_NAMES[day.weekday()]} {day.day:02}.{day.month:02}.{day.year}", day.isoformat(),
                     f"{day.day}.{day.month}."]
            self.assertEqual(dates_of(names).all, [day] * 3)
            self.assertEqual(monday_of(day).isocalendar()[:2], day.isocalendar()[:2])
            self.assertEqual(monday_of(day).weekday(), 0)

    def test_weekends(self):
        for name in ("Sat", "Sunday", "Sa 06.03.", "So", "Samstag", "Sonnabend", "sam.", "dimanche", "domingo",
                     "zaterdag", "6 Sat", "Week 1 Sun", "6 Mar (Sat)"):
            self.assertEqual(weekends_among((name,)), {name})
        for name in ("Mon", "Fr", "Do", "Di", "S", "2027-03-06", "office", "", "7 Mar", "6 Mar (Mon)"):
            self.assertEqual(weekends_among((name,)), set(), name)
        for week in ("Mo Di Mi Do Fr Sa So", "Lu Ma Me Je Ve Sa Di", "Lu Ma Me Gi Ve Sa Do",
                     "Lu Ma Mi Ju Vi S\u00e1 Do", "Ma Di Wo Do Vr Za Zo",
                     "lunes martes miercoles jueves viernes sabado domingo"):
            days = week.split()
            self.assertEqual(weekends_among(tuple(days)), set(days[5:]))
        self.assertTrue(has_weekday("01.03. Mo"))
        self.assertFalse(has_weekday("2027-03-01"))


if __name__ == "__main__":
    unittest.main()
