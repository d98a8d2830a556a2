"""Dates and numbers, told apart by their columns."""

import datetime
import decimal
import unittest

from ..dates import Dates, Order
from ..found import Shown, letters
from ..laid_out import rows_in_short
from ..numbers import Mark, Numbers
from ..texts import read_name
from ..unsure import Unsure

DMY, MDY = Order.DAY_FIRST, Order.MONTH_FIRST


class Reads(unittest.TestCase):
    """What a column of cells is read as; None where that is refused."""

    def read(self, reader, value):
        try:
            return reader.read(value)
        except Unsure:
            return None

    def dates(self, *values, asked=None):
        reader = Dates(values, asked)
        return [self.read(reader, value) for value in values]

    def numbers(self, *values, hints=frozenset(), asked=None):
        reader = Numbers(values, hints, asked)
        return [self.read(reader, value) for value in values]


class OfDates(Reads):
    def test_the_year_first(self):
        texts = ("2025-01-20", "2025/1/20", "2025.01.20", "20250120", " 2025-01-20\u00a0")
        self.assertEqual(set(self.dates(*texts)), {"2025-01-20"})

    def test_the_day_first(self):
        for mark in "/.-":
            texts = [text.replace("/", mark) for text in ("20/01/2025", "6/1/2025", "03/02/2025")]
            self.assertEqual(self.dates(*texts), ["2025-01-20", "2025-01-06", "2025-02-03"])

    def test_the_month_first(self):
        self.assertEqual(self.dates("01/20/2025", "1/6/2025"), ["2025-01-20", "2025-01-06"])

    def test_it_could_be_both(self):
        self.assertEqual(self.dates("06/01/2025", "03/02/2025"), [None, None])
        self.assertEqual(self.dates("06/01/2025", asked=DMY), ["2025-01-06"])
        self.assertEqual(self.dates("06/01/2025", asked=MDY), ["2025-06-01"])

    def test_what_is_the_same_in_both(self):
        self.assertEqual(self.dates("05/05/2025", "06/01/2025"), ["2025-05-05", None])

    def test_a_column_with_both_is_refused(self):
        self.assertEqual(self.dates("20/01/2025", "01/20/2025", "06/01/2025"), [None] * 3)
        self.assertEqual(self.dates("20/01/2025", "01/20/2025", asked=DMY), [None] * 2)

    def test_each_mark_speaks_for_itself(self):
        self.assertEqual(self.dates("20.01.2025", "06/01/2025"), ["2025-01-20", None])

    def test_the_column_is_not_as_asked(self):
        self.assertEqual(self.dates("20/01/2025", "06/01/2025", asked=MDY), [None, None])

    def test_no_dates(self):
        texts = (
            "31/02/2025",
            "2025-02-30",
            "20/01/25",
            "20-Jan-25",
            "20-Foo-2025",
            "31 Jun 2025",
            "2025-01",
            "45677",
            "0001-01-01",
            "2025-01-20 25:00",
            "32/13/2025",
        )
        self.assertEqual(self.dates(*texts), [None] * len(texts))

    def test_years_of_two_digits(self):
        self.assertEqual(self.dates("20/01/25", "03/02/25", "05/05/25"), [None] * 3)
        self.assertEqual(self.dates("20/01/25", "03/02/25", "05/05/25", asked=DMY), ["2025-01-20", "2025-02-03", "2025-05-05"])
        self.assertEqual(self.dates("20-01-25", asked=DMY), [None])
        self.assertEqual(self.dates("20-Jan-25", asked=DMY), ["2025-01-20"])

    def test_months_by_their_names(self):
        texts = ("20-Jan-2025", "20 january 2025", "20/JAN/2025", "20.Jan.2025 00:00")
        self.assertEqual(set(self.dates(*texts)), {"2025-01-20"})

    def test_a_time_of_day(self):
        self.assertEqual(self.dates("2025-01-20 00:00:00", "2025-01-20T14:30"), ["2025-01-20"] * 2)
        self.assertEqual(self.dates("20/01/2025 14:30"), ["2025-01-20"])

    def test_of_a_workbook(self):
        self.assertEqual(self.dates(datetime.datetime(2025, 1, 20), datetime.date(2025, 1, 6)), ["2025-01-20", "2025-01-06"])
        self.assertEqual(self.dates(20250120, 45677, 45677.0, Shown(45677, "0")), ["2025-01-20", None, None, None])

    def test_texts_among_dates_of_a_workbook(self):
        # (a spreadsheet that takes the month first has made 5 June of 06/05/2025, and left 20/05/2025 a text)
        self.assertEqual(self.dates(datetime.datetime(2025, 6, 5), "20/05/2025"), ["2025-06-05", None])
        self.assertEqual(self.dates(datetime.datetime(2025, 6, 5), "2025-05-20"), ["2025-06-05", "2025-05-20"])


class OfNumbers(Reads):
    def test_plain_ones(self):
        self.assertEqual(
            self.numbers("12", "007", " 5 ", 12, 12.0, decimal.Decimal("12.000")), ["12", "007", "5", "12", "12", "12"]
        )

    def test_decimals(self):
        self.assertEqual(self.numbers("12.0", "12.00", "12."), ["12"] * 3)
        self.assertEqual(self.numbers("12,0", "12,00", "1234,000", "0,000"), ["12", "12", "1234", "0"])

    def test_groups(self):
        self.assertEqual(self.numbers("1,000", "20"), ["1000", "20"])
        self.assertEqual(
            self.numbers("1,000,000", "1.000.000", "1 000", "1\u00a0000\u00a0000", "1'000", "1\u2019000"),
            ["1000000", "1000000", "1000", "1000000", "1000", "1000"],
        )
        self.assertEqual(self.numbers("1,000.0", "1.000,00", "1 000,000", "1 000.000"), ["1000"] * 4)

    def test_what_could_be_both(self):
        self.assertEqual(self.numbers("1,000"), [None])
        self.assertEqual(self.numbers("12.000"), [None])
        self.assertEqual(self.numbers("12.000", "20"), [None, "20"])
        self.assertEqual(self.numbers("1,000", "12.000", "20"), [None, None, "20"])

    def test_the_column_says_it(self):
        self.assertEqual(self.numbers("1,000", "12.0"), ["1000", "12"])
        self.assertEqual(self.numbers("1,000", "12,0"), ["1", "12"])
        self.assertEqual(self.numbers("1.000", "12,0"), ["1000", "12"])
        self.assertEqual(self.numbers("1,000", "12,0", "12.0"), [None, "12", "12"])

    def test_other_columns_say_it(self):
        self.assertEqual(self.numbers("1,000", hints={Mark.POINT}), ["1000"])
        self.assertEqual(self.numbers("1,000", hints={Mark.COMMA}), ["1"])
        self.assertEqual(self.numbers("1,000", hints={Mark.COMMA, Mark.POINT}), [None])
        self.assertEqual(self.numbers("1,000", "20", hints={Mark.COMMA}), [None, "20"])

    def test_it_is_asked_for(self):
        self.assertEqual(self.numbers("1,000", "12.000", asked=Mark.POINT), ["1000", "12"])
        self.assertEqual(self.numbers("1,000", "12.000", asked=Mark.COMMA), ["1", "12000"])
        self.assertEqual(self.numbers("1,000", "12.0", asked=Mark.COMMA), [None, "12"])

    def test_no_whole_numbers(self):
        texts = (
            "12.5",
            "1,5",
            "-5",
            "(5)",
            "5-",
            "+5",
            "1E+05",
            "12 pcs",
            "10%",
            "1,00,000",
            "1,0000.0",
            ".5",
            "ten",
            "0x10",
            "\u0661",
            "1 00",
            "\u00b2",
        )
        self.assertEqual(self.numbers(*texts), [None] * len(texts))
        self.assertEqual(
            self.numbers(12.5, -1, 1e17, float("nan"), decimal.Decimal("NaN"), datetime.date(2025, 1, 20)), [None] * 6
        )

    def test_a_percentage_of_a_workbook(self):
        self.assertEqual(self.numbers(Shown(1, "0%"), Shown(0.1, "0.0%"), Shown(12.0, "#,##0.00")), [None, None, "12"])


class OfNames(Reads):
    def name(self, value):
        try:
            return read_name(value)
        except Unsure:
            return None

    def test_texts(self):
        self.assertEqual(
            [self.name(it) for it in ("BIKE", " two words ", '5" bolt', "=A1", "M\u00fcller", "a\tb")],
            ["BIKE", "two words", '5" bolt', "=A1", None, None],
        )

    def test_numbers_of_a_database(self):
        self.assertEqual([self.name(it) for it in (1001, 10**17 + 1, -1, 1001.0)], ["1001", str(10**17 + 1), None, None])

    def test_numbers_of_a_workbook(self):
        for value, form, name in (
            (1001, "General", "1001"),
            (1001.0, "@", "1001"),
            (7, "0000", "0007"),
            (10007, "0000", "10007"),
            (1001, "#,##0", None),
            (10.5, "General", None),
            (-5, "0", None),
            (10**15, "0", None),
            (1e20, "General", None),
        ):
            self.assertEqual(self.name(Shown(value, form)), name, value)

    def test_dates(self):
        self.assertIsNone(self.name(datetime.datetime(2025, 5, 1)))


class Small(unittest.TestCase):
    def test_letters(self):
        self.assertEqual([letters(it) for it in (0, 25, 26, 701, 702)], ["A", "Z", "AA", "ZZ", "AAA"])

    def test_rows_in_short(self):
        self.assertEqual(rows_in_short([2, 4, 5, 6, 9]), "rows 2, 4 to 6, 9")
        self.assertEqual(rows_in_short([3]), "row 3")


if __name__ == "__main__":
    unittest.main()
