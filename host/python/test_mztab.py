"""Tests of the module: python3 -m unittest, in this folder. Answers are those of the paper and of examples/."""

import concurrent.futures
import fractions
import math
import os
import pathlib
import random
import struct
import unittest
import unittest.mock

import mztab

ROOT = pathlib.Path(__file__).resolve().parents[2]
EXAMPLES = ROOT / "examples"
YEAST = (EXAMPLES / "yeast.mztab").read_bytes()
ACCEPTED = (EXAMPLES / "accepted.mztab").read_bytes()
EXPONENTS = (EXAMPLES / "exponents.mztab").read_bytes()
FEE = (EXAMPLES / "fee.mztab").read_bytes()
LONG = b"\n" * (mztab.LIMIT + 1)


def read(text):
    return mztab.reading(b"SML\t" + text, mztab.SMALL_MOLECULE, 1, 1)


class Judging(unittest.TestCase):
    def test_the_papers_example(self):
        self.assertEqual(mztab.judge(YEAST), [(7, 6, 15, 0), (8, 6, 19, 0), (9, 2, 20, 0), (10, 500, 22, 0), (10, 900, 22, 0), (10, 1000, 22, 0)])
        self.assertEqual(mztab.judge(YEAST)[0], mztab.Break(line=7, cell=6, rule=15, first=0))
        self.assertEqual(mztab.judge(ACCEPTED), [])
        self.assertEqual(mztab.count(ACCEPTED), 0)
        self.assertEqual(mztab.judge(EXPONENTS), [])

    def test_an_empty_file(self):
        self.assertEqual(mztab.judge(b""), [(1, cell, 21, 0) for cell in range(1, 6)])

    def test_what_mode_and_type_ask_for(self):
        lines = [
            b"MTD\tmzTab-version\t1.0",
            b"MTD\tmzTab-mode\tComplete",
            b"MTD\tmzTab-type\tQuantification",
            b"MTD\tdescription\ta",
            b"MTD\tms_run[1]-location\tb",
            b"MTD\tassay[2]-ms_run_ref\tms_run[1]",
            b"MTD\tstudy_variable[3]-description\tc",
        ]
        cells = [203, 400, 900, 1000, 1100, 1502]
        self.assertEqual(mztab.judge(b"\n".join(lines)), [(8, cell, 22, 0) for cell in cells])
        # Where the type is not valid nothing is asked for.
        lines[2] = b"MTD\tmzTab-type\tquantification"
        self.assertEqual(mztab.judge(b"\n".join(lines)), [(3, 3, 7, 0)])

    def test_bad_indices(self):
        for line, cell, rule in [
            (b"MTD\tsample[01]-description\ta", 2, 23),
            (b"MTD\tsample[65]-description\ta", 2, 24),
            (b"MTD\tassay[0]-ms_run_ref\tms_run[1]", 2, 23),
            (b"MTD\tsoftware[65]-setting[01]\ta", 2, 24),
            (b"MTD\tsoftware[01]-setting[65]\ta", 2, 23),
            (b"MTD\tassay[1]-ms_run_ref\tms_run[077]", 3, 23),
            (b"MTD\tstudy_variable[1]-assay_refs\tassay[1], assay[65],assay[0]", 3, 24),
            (b"SMH\tidentifier\tcharge\tbest_search_engine_score[077]", 4, 23),
            (b"SMH\tidentifier\tcharge\tsmallmolecule_abundance_assay[65]", 4, 24),
            # What is wrong besides stays what it was.
            (b"MTD\tsample[0]-nothing\ta", 2, 5),
            (b"MTD\tsample[1a]-description\ta", 2, 5),
            (b"MTD\tassay[1]-ms_run_ref\tassay[077]", 3, 7),
            (b"SMH\tidentifier\tcharge\tbest_search_engine_score[1a]", 4, 12),
        ]:
            self.assertEqual(mztab.judge(line, 2), [(1, cell, rule, 0), (2, 1, 21, 0)], line)

    def again(self, file, expected):
        """The breaks of a file but those of rule 21 are these, and so are the first of them."""
        found = mztab.judge(file)
        self.assertEqual([fault for fault in found if fault.rule != 21], expected, file)
        for most in range(len(found) + 2):
            self.assertEqual(mztab.judge(file, most), found[:most], file)

    def test_a_key_that_comes_again(self):
        # The earliest line, not the nearest; empty lines and comments count.
        file = b"\nMTD\ttitle\ta\nCOM\nMTD\ttitle\tb\nMTD\tcontact[1]-name\ta\nMTD\ttitle\tc\nMTD\tcontact[2]-name\ta\nMTD\tcontact[1]-name\ta"
        self.again(file, [(4, 2, 6, 2), (6, 2, 6, 2), (8, 2, 6, 5)])
        self.assertEqual(mztab.judge(file)[0].first, 2)
        # Lines of two and of four cells do not count; one whose value is wrong does.
        self.again(b"MTD\ttitle\nMTD\ttitle\ta\t\nMTD\ttitle\ta\nMTD\ttitle\ta\n", [(1, 1, 3, 0), (2, 1, 3, 0), (4, 2, 6, 3)])
        self.again(b"MTD\tsoftware[1]\ta\nMTD\tsoftware[1]\t[, , a, ]\n", [(1, 3, 7, 0), (2, 2, 6, 1)])

    def test_a_header_that_comes_again(self):
        # The earliest of the same section.
        peptides, molecules = b"PEH\tsequence\taccession\tcharge\tmass_to_charge\n", b"SMH\tidentifier\tcharge\n"
        file = b"COM\n" + peptides + molecules + b"SML\ta\t1\n" + molecules + peptides + molecules
        self.again(file, [(5, 1, 9, 3), (6, 1, 9, 2), (6, 1, 10, 0), (7, 1, 9, 3)])

    def test_a_name_that_comes_again(self):
        # The first cell, not the nearest; two names of one header; this header alone.
        file = b"SMH\tidentifier\tcharge\tcharge\tidentifier\tcharge\n"
        self.again(file, [(1, 4, 13, 3), (1, 5, 13, 2), (1, 6, 13, 3)])
        file = b"SMH\tidentifier\tcharge\topt_a\nSMH\tcharge\tidentifier\topt_a\topt_a\n"
        self.again(file, [(2, 1, 9, 1), (2, 5, 13, 4)])

    def test_other_rules_have_no_first(self):
        file = b"MTD\tx\ta\nMTD\tsample[0]-description\ta\nx\n" * 2
        self.again(file, [(line, cell, rule, 0) for line, cell, rule in [(1, 2, 5), (2, 2, 23), (3, 1, 2), (4, 2, 5), (5, 2, 23), (6, 1, 2)]])

    def test_more_firsts_than_the_first_list(self):
        found = mztab.judge(b"MTD\ttitle\ta\n" * 10_000)
        self.assertEqual(found[:-5], [(line, 2, 6, 1) for line in range(2, 10_001)])

    def test_a_library_without_firsts(self):
        class Earlier:
            def mztab_judge(self, data, length, places, room, number):
                places[:3] = [21, 1, 1]
                return 5

        self.assertFalse(mztab._has_firsts(Earlier()))

    def test_the_first_breaks(self):
        for most in range(9):
            self.assertEqual(mztab.judge(YEAST, most), mztab.judge(YEAST)[:most])

    def test_more_breaks_than_the_first_list(self):
        file = b"x\n" * 10_000
        self.assertEqual(len(mztab.judge(file)), 10_005)
        self.assertEqual(mztab.judge(file)[9_999], (10_000, 1, 2, 0))
        self.assertEqual(len(mztab.judge(file, 5_000)), 5_000)
        self.assertEqual(mztab.count(file), 10_005)

    def test_the_limit(self):
        self.assertEqual(mztab.count(b"\n" * mztab.LIMIT), 5)
        with self.assertRaises(mztab.TooLong):
            mztab.judge(b"\n" * (mztab.LIMIT + 1))

    def test_bytes_of_other_sorts(self):
        self.assertEqual(mztab.judge(bytearray(YEAST)), mztab.judge(YEAST))
        self.assertEqual(mztab.judge(memoryview(YEAST)), mztab.judge(YEAST))
        with self.assertRaises(TypeError):
            mztab.judge("text")

    def test_zero_bytes_are_bytes(self):
        self.assertEqual(mztab.judge(ACCEPTED + b"COM\t\0\0"), [])
        self.assertEqual(mztab.cell(b"PRT\ta\0b\tc", 1, 1, 1), b"a\0b")
        self.assertEqual(mztab.cell(b"PRT\ta\0b\tc", 1, 1, 2), b"c")

    def test_many_at_once(self):
        with concurrent.futures.ThreadPoolExecutor(8) as pool:
            for found in pool.map(mztab.judge, [YEAST, ACCEPTED] * 100):
                self.assertIn(len(found), (0, 6))


class Lines(unittest.TestCase):
    """One line, judged under the whole file."""

    def test_the_papers_example(self):
        self.assertEqual([mztab.judge_line(YEAST, line) for line in (6, 7, 8, 9)], [[], [(7, 6, 15, 0)], [(8, 6, 19, 0)], [(9, 2, 20, 0)]])
        self.assertEqual(mztab.judge_line(YEAST, 8)[0], mztab.Break(line=8, cell=6, rule=19, first=0))

    def lines_of(self, file):
        """How many lines a file has: bytes after the last LF are one if there are any."""
        return file.count(b"\n") + (not file.endswith(b"\n") and file != b"")

    def test_all_lines_make_the_list(self):
        again = b"MTD\ttitle\ta\r\nMTD\ttitle\tb\nSMH\tidentifier\tcharge\tcharge\nSML\t\t2+\t1\nSMH\n\nMTD\tx\ta"
        for file in (YEAST, ACCEPTED, EXPONENTS, FEE, again, b"", b"x", b"\n", b"\r"):
            last = self.lines_of(file)
            found = [fault for line in range(1, last + 1) for fault in mztab.judge_line(file, line)]
            after = [fault for fault in mztab.judge(file) if fault.line > last]
            self.assertEqual(found + after, mztab.judge(file), file)

    def test_an_edit_of_one_cell(self):
        # The breaks of all other lines, and those of the line after the last, stay the same.
        for old, new, line in [(b"Y1", b"", 8), (b"\t\n", b"\t3\n", 8), (b"\tnull\tx", b"\tY2\tx", 9), (b"4\n", b"x\n", 9)]:
            edited = YEAST.replace(old, new, 1)
            self.assertNotEqual(mztab.judge_line(edited, line), mztab.judge_line(YEAST, line))
            others = [fault for fault in mztab.judge(YEAST) if fault.line != line]
            self.assertEqual(mztab.judge(edited), sorted(others + mztab.judge_line(edited, line)))

    def test_the_first_breaks(self):
        names = b"".join(b"\topt_%d" % k for k in range(253))
        file = b"SMH\tidentifier\tcharge" + names + b"\nSML" + b"\t" * 255
        found = [(2, cell, 19, 0) for cell in range(2, 257)]
        self.assertEqual(mztab.judge_line(file, 2), found)
        for most in (0, 1, 254, 255, 256, 10_000):
            self.assertEqual(mztab.judge_line(file, 2, most), found[:most])

    def test_a_list_that_is_too_short(self):
        lent = []

        def judge_with(room):
            lent.append(room)
            return 5_000, list(range(4 * room))

        self.assertEqual(len(mztab._listed(judge_with, None)), 5_000)
        self.assertEqual(lent, [4_096, 5_000])

    def test_refusals_in_their_order(self):
        for file, line, kind in [
            (LONG, 0, mztab.TooLong),
            (LONG, 1, mztab.TooLong),
            (YEAST, 0, mztab.NoRow),
            (YEAST, 10, mztab.NoRow),
            (YEAST, 2**32 - 1, mztab.NoRow),
            (YEAST, 2**32 + 8, mztab.NoRow),
            (YEAST, 2**100, mztab.NoRow),
            (b"", 0, mztab.NoRow),
            (b"", 1, mztab.NoRow),
        ]:
            for most in (None, 0, 1):
                with self.assertRaises(kind) as caught:
                    mztab.judge_line(file, line, most)
                self.assertEqual(caught.exception.number, kind.number)
        with self.assertRaises(mztab.NoRow) as caught:
            mztab.judge_line(YEAST, 10)
        self.assertEqual(str(caught.exception), "There is no such row, or no such line.")

    def test_what_is_no_line(self):
        with self.assertRaises(ValueError):
            mztab.judge_line(YEAST, -1)
        for file, line in [(YEAST, 1.0), (YEAST, "8"), (YEAST, None), ("text", 1)]:
            with self.assertRaises(TypeError):
                mztab.judge_line(file, line)

    def test_bytes_of_other_sorts(self):
        self.assertEqual(mztab.judge_line(bytearray(YEAST), 8), mztab.judge_line(YEAST, 8))
        self.assertEqual(mztab.judge_line(memoryview(YEAST), 8), mztab.judge_line(YEAST, 8))

    def test_many_at_once(self):
        with concurrent.futures.ThreadPoolExecutor(8) as pool:
            for found in pool.map(mztab.judge_line, [YEAST] * 100, [8] * 100):
                self.assertEqual(found, [(8, 6, 19, 0)])


# The calls of the versions before judge_line, before mend and before tally.
BEFORE_LINES = ("cell", "cell_or", "reading", "judge", "rows", "weights", "add_cents", "split_fee")
BEFORE_MEND = BEFORE_LINES + ("judge_line",)
BEFORE_TALLY = BEFORE_MEND + ("mend",)


class Earlier:
    """A library with these calls, each of which can be given its types."""

    class Call:
        pass

    def __init__(self, names):
        for name in names:
            setattr(self, "mztab_" + name, self.Call())


class Versions(unittest.TestCase):
    def test_a_library_without_a_call(self):
        for names, lacking in [(BEFORE_LINES, "mztab_judge_line"), (BEFORE_MEND, "mztab_mend"), (BEFORE_TALLY, "mztab_tally")]:
            with self.assertRaisesRegex(AttributeError, lacking):
                mztab._typed(Earlier(names))
            with unittest.mock.patch("ctypes.CDLL", lambda path: Earlier(names)):
                with self.assertRaisesRegex(ImportError, rf"is of an earlier version \(.*{lacking}.*\): run \./build"):
                    mztab._load()


class Mending(unittest.TestCase):
    HOLES = b"SMH\tidentifier\tcharge\tx\r\nSML\t\tx\t\r\nCOM\t\t\nSML\tC1\t\t"
    FILLED = b"SMH\tidentifier\tcharge\tx\r\nSML\tnull\tx\tnull\r\nCOM\t\t\nSML\tC1\tnull\tnull"

    def mends(self, file, copy, changes):
        """The copy and the changes are these; its breaks are those of the file without the mended ones; mending it again changes nothing."""
        found = mztab.mend(file)
        self.assertEqual(found, (copy, changes), file)
        self.assertEqual(len(copy), len(file) + 4 * len(changes))
        left = [fault for fault in mztab.judge(file) if fault.rule != 19 or fault[:2] not in changes]
        self.assertEqual(mztab.judge(copy), left, file)
        self.assertEqual(mztab.mend(copy), (copy, []), file)

    def test_the_papers_example(self):
        copy = YEAST.replace(b"\tdb\tnull\t\n", b"\tdb\tnull\tnull\n")
        self.mends(YEAST, copy, [(8, 6)])
        self.assertEqual(mztab.mend(YEAST), mztab.Mended(copy=copy, changes=[mztab.Change(line=8, cell=6)]))

    def test_nothing_to_mend(self):
        for file in (ACCEPTED, EXPONENTS, FEE, b"", b"\t", b"\n", b"\r", b"x\t\t", b"SML\t\t", b"MTD\ttitle\t"):
            self.mends(file, file, [])

    def test_every_line_end(self):
        self.mends(self.HOLES, self.FILLED, [(2, 2), (2, 4), (4, 3), (4, 4)])
        for end in (b"", b"\n", b"\r\n", b"\n\n"):
            self.mends(self.HOLES + end, self.FILLED + end, [(2, 2), (2, 4), (4, 3), (4, 4)])
        # A CR that no LF follows is part of the cell, which is not empty then.
        self.mends(self.HOLES + b"\r", self.FILLED[:-4] + b"\r", [(2, 2), (2, 4), (4, 3)])

    def test_where_null_may_not_stand(self):
        names = [b"sequence", b"accession", b"PSM_ID", b"charge"]
        for code, unfit in [(b"PR", {b"accession"}), (b"PE", {b"sequence"}), (b"PS", {b"sequence", b"PSM_ID"}), (b"SM", set())]:
            row = {b"PR": b"PRT", b"PE": b"PEP", b"PS": b"PSM", b"SM": b"SML"}[code]
            header = b"\t".join([code + b"H"] + names)
            cells = [b"" if name in unfit else b"null" for name in names]
            changes = [(2, cell) for cell, name in enumerate(names, 2) if name not in unfit]
            self.mends(header + b"\n" + row + b"\t" * 4, header + b"\n" + b"\t".join([row] + cells), changes)

    def test_zero_bytes_are_bytes(self):
        self.mends(b"SMH\tcharge\topt_a\nSML\t\t\0\0\n\0", b"SMH\tcharge\topt_a\nSML\tnull\t\0\0\n\0", [(2, 2)])

    def test_cells_that_look_empty(self):
        # No fewer than can be mended, and not many more.
        for file, empty, most in [
            (b"", 0, 0),
            (b"a\tb\nc\td", 0, 0),
            (b"\t", 1, 1),
            (b"\t\t", 2, 3),
            (b"\t\t\t", 3, 3),
            (b"\t\n\t\r\n\t\t\n", 4, 5),
            (b"\t\r", 0, 0),
        ]:
            self.assertEqual(mztab._most_changes(file), most, file)
            self.assertGreaterEqual(most, empty, file)
        for tabs in range(300):
            self.assertGreaterEqual(mztab._most_changes(b"SML" + b"\t" * tabs), tabs)
        self.assertEqual(mztab._most_changes(b"\t" * mztab.LIMIT), 0)
        self.assertEqual(mztab._most_changes(LONG), 0)

    def test_the_limit(self):
        file = self.HOLES + b"\n" * (mztab.LIMIT - 16 - len(self.HOLES))
        copy, changes = mztab.mend(file)
        self.assertEqual((len(copy), len(changes)), (mztab.LIMIT, 4))
        self.assertTrue(copy.startswith(self.FILLED))
        with self.assertRaises(mztab.NoRoom) as caught:
            mztab.mend(file + b"\n")
        self.assertEqual((caught.exception.number, str(caught.exception)), (5, "The copy would be longer than 16,777,216 bytes."))
        with self.assertRaises(mztab.TooLong):
            mztab.mend(self.HOLES + LONG)
        self.assertEqual(mztab.mend(LONG[1:]), (LONG[1:], []))

    def test_many_changes(self):
        header = b"SMH\tidentifier\tcharge\n"
        copy, changes = mztab.mend(header + b"SML\t\t\n" * 100_000)
        self.assertEqual(copy, header + b"SML\tnull\tnull\n" * 100_000)
        self.assertEqual(changes, [(line, cell) for line in range(2, 100_002) for cell in (2, 3)])

    def test_bytes_of_other_sorts(self):
        for file in (bytearray(self.HOLES), memoryview(self.HOLES)):
            self.assertEqual(mztab.mend(file).copy, self.FILLED)
        self.assertIs(type(mztab.mend(bytearray(self.HOLES)).copy), bytes)
        for file in ("text", None, 1.5):
            with self.assertRaises(TypeError):
                mztab.mend(file)

    def test_many_at_once(self):
        with concurrent.futures.ThreadPoolExecutor(8) as pool:
            for found in pool.map(mztab.mend, [self.HOLES] * 100):
                self.assertEqual(found.copy, self.FILLED)


class Cells(unittest.TestCase):
    def test_cells(self):
        self.assertEqual(mztab.cell(YEAST, mztab.PROTEIN, 0, 1), b"accession")
        self.assertEqual(mztab.cell(YEAST, 1, 1, 2), b"null")
        self.assertEqual(mztab.cell(YEAST, 1, 1, 2, stand_in=b""), b"")
        self.assertEqual(mztab.cell(YEAST, 1, 1, 1, stand_in=b"-"), b"Y1")
        self.assertEqual(mztab.cell(YEAST, 1, 1, 5), b"")

    def test_refusals_in_their_order(self):
        long = b"\n" * (mztab.LIMIT + 1)
        for file, question, kind in [
            (long, (9, 9, 0), mztab.TooLong),
            (YEAST, (5, 9, 0), mztab.NoSection),
            (YEAST, (0, 9, 0), mztab.NoSection),
            (YEAST, (1, 3, 0), mztab.NoRow),
            (YEAST, (1, 2**40, 1), mztab.NoRow),
            (YEAST, (1, 2, 0), mztab.NoCell),
            (YEAST, (1, 2, 6), mztab.NoCell),
        ]:
            for call in (mztab.cell, mztab.reading):
                with self.assertRaises(kind) as caught:
                    call(file, *question)
                self.assertEqual(caught.exception.number, kind.number)
        with self.assertRaises(ValueError):
            mztab.cell(YEAST, 1, -1, 1)


class Readings(unittest.TestCase):
    def test_where_it_stands(self):
        self.assertEqual(mztab.reading(YEAST, 1, 2, 5), (9, 6, "whole", 4, None, None))

    def test_each_case(self):
        self.assertEqual(read(b"null")[2:4], ("missing", None))
        self.assertEqual(read(b"-007")[2:4], ("whole", -7))
        self.assertEqual(read(b"-1123.200")[2:], ("decimal", -1123.2, -1123200, -3))
        self.assertEqual(read(b"INF")[2:4], ("infinite", math.inf))
        self.assertTrue(math.isnan(read(b"NaN").value))
        self.assertEqual(read(b"1234567890123456")[2:4], ("long decimal", None))
        self.assertEqual(read(b".5")[2:4], ("text", None))
        self.assertEqual(read(b"")[2:4], ("text", None))

    def test_doubles_bit_for_bit(self):
        for text in ["0.1", "-0.0", "1234567890", "999999999999999", "0.00000000000001", "12345678901234.5", "99999.9999999999"]:
            self.nearest(text)

    def nearest(self, text):
        """The text reads as a decimal: by its numerals and power exactly the number it writes, and the float that Python finds, bit for bit."""
        found = read(text.encode())
        self.assertEqual(found.case, "decimal", text)
        self.assertEqual(struct.pack("d", found.value), struct.pack("d", float(text)), text)
        exact = fractions.Fraction(found.numerals) * fractions.Fraction(10) ** found.power
        self.assertEqual(exact, fractions.Fraction(text), text)
        return found

    def test_exponents(self):
        for text, numerals, power in [
            ("12.50", 1250, -2),
            ("1.2E-5", 12, -6),
            ("3e2", 3, 2),
            ("3.2e-05", 32, -6),
            ("6.229394e06", 6229394, 0),
            ("-1.2E+06", -12, 5),
            ("-0E0", 0, 0),
            ("999999999999999E22", 999999999999999, 22),
            ("0.00000000000001e-008", 1, -22),
        ]:
            self.assertEqual(self.nearest(text)[4:], (numerals, power), text)

    def test_drawn_exponents_bit_for_bit(self):
        draw = random.Random(2026_04)
        for _ in range(4_000):
            digits = "".join(draw.choices("0123456789", k=draw.randint(1, 15)))
            places = draw.randrange(len(digits))
            power = draw.choice((-22, 22, draw.randint(-22, 22)))
            mantissa = digits[: len(digits) - places] + ("." + digits[len(digits) - places :] if places else "")
            exponent = power + places
            sign = "-" if exponent < 0 else draw.choice(("", "+"))
            width = draw.randint(1, 3)
            text = f"{draw.choice(('', '-'))}{mantissa}{draw.choice('Ee')}{sign}{abs(exponent):0{width}}"
            found = self.nearest(text)
            self.assertEqual((abs(found.numerals), found.power), (int(digits), power), text)

    def test_long_ones_and_no_decimals(self):
        for text in (b"1E23", b"1e-23", b"0E23", b"1.0E-22", b"1E999", b"1E-999", b"1234567890123456E0", b"0.123456789012345e1"):
            self.assertEqual(read(text)[2:], ("long decimal", None, None, None), text)
        for text in (b".5E1", b"5.E1", b"E5", b"1E", b"1E+", b"1E1000", b"1.2E-5.0", b"1E5E5", b"1E+-5", b"1E 5", b"+1E5", b"INFE1", b"NaNe1"):
            self.assertEqual(read(text)[2:], ("text", None, None, None), text)


class Rows(unittest.TestCase):
    def test_each_section(self):
        self.assertEqual([mztab.rows(YEAST, section) for section in (1, 2, 3, 4)], [2, 0, 0, 0])
        self.assertEqual(mztab.rows(b"", mztab.PSM), 0)

    def test_whatever_breaks_the_file_has(self):
        file = b"PRT\nPRH\nPSM\tx\r\nPRT\ta\tb\nPRTx\nprt\n\nCOM\tPRT\nPRT"
        self.assertEqual([mztab.rows(file, section) for section in (1, 2, 3, 4)], [3, 0, 1, 0])
        # The cell call knows these rows, and none after them.
        for row, kind in [(1, mztab.NoCell), (3, mztab.NoCell), (4, mztab.NoRow)]:
            with self.assertRaises(kind):
                mztab.cell(file, mztab.PROTEIN, row, 0)

    def test_refusals_in_their_order(self):
        with self.assertRaises(mztab.TooLong):
            mztab.rows(LONG, 9)
        for section in (0, 5, 2**32, 2**40):
            with self.assertRaises(mztab.NoSection):
                mztab.rows(YEAST, section)
        with self.assertRaises(ValueError):
            mztab.rows(YEAST, -1)


class Weights(unittest.TestCase):
    def test_the_example(self):
        self.assertEqual(mztab.weights(FEE), [3, 2, 2] + [0] * 61)
        self.assertEqual(mztab.split_fee(100_000, mztab.weights(FEE)), [42_857, 28_572, 28_571] + [0] * 61)

    def test_a_file_without_such_columns(self):
        self.assertEqual(mztab.weights(ACCEPTED), [0] * 64)

    def test_null_alone_is_missing(self):
        for cell, weight in [(b"0", 3), (b"-0.0", 3), (b"INF", 3), (b"NaN", 3), (b"null", 2)]:
            self.assertEqual(mztab.weights(FEE.replace(b"\t12.5\t", b"\t" + cell + b"\t"))[0], weight, cell)

    def test_the_last_study_variable(self):
        self.assertEqual(mztab.weights(FEE.replace(b"variable[2]", b"variable[64]")), [3, 0, 2] + [0] * 60 + [2])

    def test_other_columns_are_not_counted(self):
        for name in (b"protein_abundance_stdev_study_variable[2]", b"protein_abundance_assay[2]"):
            self.assertEqual(mztab.weights(FEE.replace(b"protein_abundance_study_variable[2]", name))[:3], [3, 0, 2])

    def test_refusals(self):
        with self.assertRaises(mztab.TooLong):
            mztab.weights(LONG)
        for file in (YEAST, b"", FEE + b"x", FEE.replace(b"12.5", b"")):
            with self.assertRaises(mztab.NotAccepted) as caught:
                mztab.weights(file)
            self.assertEqual(caught.exception.number, 7)
        with self.assertRaises(TypeError):
            mztab.weights("text")


class Amounts(unittest.TestCase):
    def test_sums(self):
        self.assertEqual(mztab.add_cents(0, 0), 0)
        self.assertEqual(mztab.add_cents(1_250, 50), 1_300)
        self.assertEqual(mztab.add_cents(mztab.FEE_LIMIT - 1, 1), mztab.FEE_LIMIT)

    def test_past_the_limit(self):
        for a, b in [(mztab.FEE_LIMIT, 1), (mztab.FEE_LIMIT + 1, 0), (2**64 - 1, 1), (2**63, 2**63), (2**64, 0), (1, 2**100)]:
            for pair in ((a, b), (b, a)):
                with self.assertRaises(mztab.TooLarge) as caught:
                    mztab.add_cents(*pair)
                self.assertEqual(caught.exception.number, 16)

    def test_what_is_no_amount(self):
        with self.assertRaises(ValueError):
            mztab.add_cents(5, -1)
        with self.assertRaises(TypeError):
            mztab.add_cents(1.5, 1)


def split_by_fractions(fee, weights):
    """The split as the request says it, over exact fractions."""
    parts = [fractions.Fraction(fee * weight, sum(weights)) for weight in weights]
    shares = [math.floor(part) for part in parts]
    # The sort keeps the order of equals, so the lower number comes first.
    by_remainder = sorted(range(len(parts)), key=lambda k: shares[k] - parts[k])
    for k in by_remainder[: fee - sum(shares)]:
        shares[k] += 1
    return shares


class Splits(unittest.TestCase):
    def test_one_weight(self):
        for weight in (1, 2, 3, mztab.WEIGHT_LIMIT - 1):
            for fee in (0, 1, 99_999, mztab.FEE_LIMIT):
                self.assertEqual(mztab.split_fee(fee, [weight]), [fee])

    def test_64_equal_weights(self):
        self.assertEqual(mztab.split_fee(6_400, [7] * 64), [100] * 64)
        self.assertEqual(mztab.split_fee(6_463, [7] * 64), [101] * 63 + [100])

    def test_one_cent_over_64(self):
        self.assertEqual(mztab.split_fee(1, [7] * 64), [1] + [0] * 63)
        self.assertEqual(mztab.split_fee(1, [7] * 63 + [8]), [0] * 63 + [1])
        self.assertEqual(mztab.split_fee(0, [7] * 64), [0] * 64)

    def test_ties_go_to_the_lower_number(self):
        # 100,000 by 3 of 7 is 42,857 and 1 over, by 2 of 7 it is 28,571 and 3 over, twice: one cent is left.
        self.assertEqual(mztab.split_fee(100_000, [3, 2, 2]), [42_857, 28_572, 28_571])
        self.assertEqual(mztab.split_fee(100_000, [2, 3, 2]), [28_572, 42_857, 28_571])
        self.assertEqual(mztab.split_fee(100, [1, 1, 1]), [34, 33, 33])
        self.assertEqual(mztab.split_fee(101, [1, 1, 1]), [34, 34, 33])

    def test_the_largest_remainder_first(self):
        # 10 by 6, 3 and 2 of 11 is 5 and 5 over, 2 and 8 over, 1 and 9 over: two cents are left.
        self.assertEqual(mztab.split_fee(10, [6, 3, 2]), [5, 3, 2])
        self.assertEqual(mztab.split_fee(100, [3, 3, 1]), [43, 43, 14])

    def test_weights_of_zero_between_others(self):
        self.assertEqual(mztab.split_fee(100, [0, 1, 0, 1, 1, 0]), [0, 34, 0, 33, 33, 0])
        self.assertEqual(mztab.split_fee(5, [0] * 63 + [1]), [0] * 63 + [5])

    def test_the_largest_fee_and_weights(self):
        fee, heavy = mztab.FEE_LIMIT, mztab.WEIGHT_LIMIT - 1
        self.assertEqual(mztab.split_fee(fee, [heavy] * 64), [1_562_500_000] * 64)
        self.assertEqual(mztab.split_fee(fee, [heavy, 1]), [99_999_994_040, 5_960])
        self.assertEqual(mztab.split_fee(fee, [heavy] * 3), [33_333_333_334, 33_333_333_333, 33_333_333_333])

    def test_drawn_splits_against_exact_fractions(self):
        draw = random.Random(2026_10)
        limits = (2, 10, 1_000, mztab.WEIGHT_LIMIT)
        for _ in range(2_000):
            limit = draw.choice(limits)
            weights = [draw.choice((0, draw.randrange(limit), limit - 1)) for _ in range(draw.randint(1, 64))]
            weights[draw.randrange(len(weights))] = limit - 1
            fee = draw.choice((draw.randint(0, 100), draw.randint(0, mztab.FEE_LIMIT), mztab.FEE_LIMIT - draw.randint(0, 100)))
            shares = mztab.split_fee(fee, weights)
            self.assertEqual(shares, split_by_fractions(fee, weights), (fee, weights))
            self.assertEqual(sum(shares), fee)
            for share, weight in zip(shares, weights):
                self.assertLess(abs(share - fractions.Fraction(fee * weight, sum(weights))), 1)

    def test_any_sort_of_whole_numbers(self):
        self.assertEqual(mztab.split_fee(10, (2, 3)), [4, 6])
        self.assertEqual(mztab.split_fee(10, (weight for weight in range(3))), [0, 3, 7])
        for fee, weights in [(1.0, [1]), (1, [1.5]), ("1", [1]), (1, ["1"])]:
            with self.assertRaises(TypeError):
                mztab.split_fee(fee, weights)
        for fee, weights in [(-1, [1]), (1, [2, -1])]:
            with self.assertRaises(ValueError):
                mztab.split_fee(fee, weights)

    def test_refusals_in_their_order(self):
        over = mztab.FEE_LIMIT + 1
        for fee, weights, kind, number in [
            (over, [], mztab.NotAsMany, 15),
            (over, [mztab.WEIGHT_LIMIT] * 65, mztab.NotAsMany, 15),
            (1, [0] * 65, mztab.NotAsMany, 15),
            (over, [0], mztab.TooLarge, 16),
            (2**64, [1], mztab.TooLarge, 16),
            (0, [0, mztab.WEIGHT_LIMIT], mztab.TooLarge, 16),
            (1, [2**32], mztab.TooLarge, 16),
            (0, [0], mztab.AllZero, 17),
            (mztab.FEE_LIMIT, [0] * 64, mztab.AllZero, 17),
        ]:
            with self.assertRaises(kind) as caught:
                mztab.split_fee(fee, weights)
            self.assertEqual(caught.exception.number, number)


def proteins(columns, *rows):
    """An accepted file with these protein columns and rows beside those that are needed; every run is declared."""
    lines = ["MTD\tmzTab-version\t1.0", "MTD\tmzTab-mode\tSummary", "MTD\tmzTab-type\tIdentification", "MTD\tdescription\tx"]
    lines += [f"MTD\t{key}[1]\t[, , x, ]" for key in ("protein_search_engine_score", "fixed_mod", "variable_mod")]
    lines += [f"MTD\tms_run[{run}]-location\tx" for run in range(1, 65)]
    lines += ["\t".join(("PRH", "accession", "description", "database", "search_engine") + columns)]
    lines += ["\t".join(("PRT", "P", "null", "null", "null") + row) for row in rows]
    return "\n".join(lines).encode()


COUNTS = ("num_psms_ms_run", "num_peptides_distinct_ms_run", "num_peptides_unique_ms_run")
MOST = 2**64 - 1


class Tallies(unittest.TestCase):
    def test_the_examples(self):
        self.assertEqual(mztab.tally(ACCEPTED), mztab.Tally(psms=4, protein_rows=2, missing=1))
        two_runs = (EXAMPLES / "tally.mztab").read_bytes()
        self.assertEqual(mztab.tally(two_runs), mztab.Tally(psms=1637, distinct=60, unique=20, protein_rows=3, missing=1))
        self.assertEqual(mztab.tally(EXPONENTS), (0, 0, 0, 2, 2, 0, 0, 0))
        self.assertEqual(mztab.tally(FEE), mztab.Tally(protein_rows=4))
        self.assertEqual(mztab.Tally(), (0,) * 8)

    def test_each_counter(self):
        columns = ("num_psms_ms_run[2]", "num_peptides_unique_ms_run[1]", "num_psms_ms_run[64]", "num_peptides_distinct_ms_run[7]")
        file = proteins(columns, ("1", "20", "300", "4000"), ("5", "null", "0600", "-0"), ("null", "80", "900", "null"))
        self.assertEqual(mztab.tally(file), mztab.Tally(psms=1806, distinct=4000, unique=100, protein_rows=3, missing=3))
        self.assertEqual(mztab.tally(proteins(columns)), mztab.Tally())

    def test_every_run(self):
        for place, name in enumerate(COUNTS):
            columns = tuple(f"{name}[{run}]" for run in range(1, 65))
            expected = [0, 0, 0, 1, 0, 0, 0, 0]
            expected[place] = 64 * 999_999_999
            self.assertEqual(mztab.tally(proteins(columns, ("999999999",) * 64)), tuple(expected))

    def test_a_column_that_is_not_there_is_not_missing(self):
        file = proteins(("taxid", "opt_num_psms_ms_run[1]"), ("null", "null"), ("-7", "5"))
        self.assertEqual(mztab.tally(file), mztab.Tally(protein_rows=2))

    def test_refusals_in_their_order(self):
        below = proteins(("num_psms_ms_run[1]",), ("4",), ("-1",))
        for file, kind, number in [
            (below + LONG, mztab.TooLong, 1),
            (LONG, mztab.TooLong, 1),
            (below + b"\nx", mztab.NotAccepted, 7),
            (YEAST, mztab.NotAccepted, 7),
            (b"", mztab.NotAccepted, 7),
            (below, mztab.BelowZero, 12),
        ]:
            with self.assertRaises(kind) as caught:
                mztab.tally(file)
            self.assertEqual((caught.exception.number, str(caught.exception)), (number, kind.__doc__))
        for name in COUNTS:
            for cell in ("-1", "-007", "-999999999"):
                with self.assertRaises(mztab.BelowZero):
                    mztab.tally(proteins((name + "[3]", "taxid"), ("1", "-1"), (cell, "1")))

    def test_bytes_of_other_sorts(self):
        for file in (bytearray(ACCEPTED), memoryview(ACCEPTED)):
            self.assertEqual(mztab.tally(file).psms, 4)
        for file in ("text", None, 1.5):
            for call in (mztab.tally, mztab.read_tally):
                with self.assertRaises(TypeError):
                    call(file)

    def test_many_at_once(self):
        with concurrent.futures.ThreadPoolExecutor(8) as pool:
            for found in pool.map(mztab.tally, [ACCEPTED] * 100):
                self.assertEqual(found.psms, 4)


class Sums(unittest.TestCase):
    def test_total_by_total(self):
        a, b = mztab.Tally(1, 2, 3, 4, 5, 6, 7, 8), mztab.Tally(10, 20, 30, 40, 50, 60, 70, 80)
        self.assertEqual(mztab.add_tallies(a, b), mztab.Tally(11, 22, 33, 44, 55, 66, 77, 88))
        self.assertEqual(mztab.add_tallies(a, mztab.Tally()), a)
        self.assertEqual(mztab.add_tallies(a, a), (2, 4, 6, 8, 10, 12, 14, 16))
        self.assertIs(type(mztab.add_tallies(a, b)), mztab.Tally)

    def test_the_sign(self):
        tallies = [mztab.tally(file) for file in (ACCEPTED, EXPONENTS, FEE)]
        self.assertEqual(sum(tallies, mztab.Tally()), mztab.Tally(psms=4, protein_rows=8, peptide_rows=2, missing=1))
        for other in (1, (1,) * 8, None):
            with self.assertRaises(TypeError):
                tallies[0] + other

    def test_any_order(self):
        draw = random.Random(2026_09)
        for _ in range(500):
            a, b, c = (mztab.Tally(*[draw.randrange(2**62) for _ in range(8)]) for _ in range(3))
            expected = tuple(map(sum, zip(a, b, c)))
            self.assertEqual(a + b + c, expected)
            self.assertEqual(c + (b + a), expected)

    def test_past_64_bits(self):
        for field in mztab.Tally._fields:
            most = mztab.Tally()._replace(**{field: MOST})
            self.assertEqual(mztab.add_tallies(most, mztab.Tally()), most)
            for a, b in [(MOST, 1), (1, MOST), (2**63, 2**63), (MOST, MOST)]:
                a, b = (mztab.Tally()._replace(**{field: total}) for total in (a, b))
                with self.assertRaises(mztab.Past64Bits) as caught:
                    mztab.add_tallies(a, b)
                self.assertEqual((caught.exception.number, str(caught.exception)), (13, "A sum of two totals is over 64 bits."))

    def test_what_is_no_total(self):
        for total, error in [(-1, ValueError), (2**64, OverflowError), (2**100, OverflowError), (1.0, TypeError), ("1", TypeError), (None, TypeError)]:
            for field in mztab.Tally._fields:
                wrong = mztab.Tally()._replace(**{field: total})
                for call in (
                    lambda: mztab.add_tallies(wrong, mztab.Tally()),
                    lambda: mztab.add_tallies(mztab.Tally(), wrong),
                    lambda: mztab.write_tally(wrong),
                ):
                    with self.assertRaises(error):
                        call()
        for wrong in ((0,) * 8, [0] * 8, {}, None, b"\0" * 70):
            with self.assertRaises(TypeError):
                mztab.write_tally(wrong)


class Records(unittest.TestCase):
    TALLY = mztab.Tally(1, 256, 0x0102030405060708, 0, MOST, 3, 4, 5)
    RECORD = struct.pack("<IH8Q", 66, 1, *TALLY)

    def test_by_hand(self):
        self.assertEqual(mztab.write_tally(self.TALLY), self.RECORD)
        self.assertEqual(len(self.RECORD), mztab.RECORD)
        self.assertEqual(self.RECORD[:14], bytes([66, 0, 0, 0, 1, 0, 1, 0, 0, 0, 0, 0, 0, 0]))
        self.assertEqual(mztab.read_tally(self.RECORD), self.TALLY)
        self.assertEqual(mztab.read_tally(bytearray(self.RECORD)), self.TALLY)
        self.assertIs(type(mztab.write_tally(self.TALLY)), bytes)

    def test_drawn(self):
        draw = random.Random(70)
        for _ in range(500):
            tally = mztab.Tally(*[draw.choice((0, MOST, draw.getrandbits(64), draw.randrange(1000))) for _ in range(8)])
            self.assertEqual(mztab.write_tally(tally), struct.pack("<IH8Q", 66, 1, *tally))
            self.assertEqual(mztab.read_tally(mztab.write_tally(tally)), tally)

    def test_bytes_that_are_none(self):
        others = [self.RECORD[:length] for length in range(70)] + [self.RECORD + bytes(more) for more in range(1, 10)]
        for place in range(6):
            for flip in (1, 2, 128, 255):
                other = bytearray(self.RECORD)
                other[place] ^= flip
                others.append(other)
        for other in others + [ACCEPTED, bytes(70), LONG]:
            with self.assertRaises(mztab.NotARecord) as caught:
                mztab.read_tally(other)
            self.assertEqual((caught.exception.number, str(caught.exception)), (14, "The bytes are not the record of a tally."))


class Readme(unittest.TestCase):
    """The calls that README.md shows, each with its answer beside it; an answer that ends in dots is shown in part."""

    def test_the_calls(self):
        folder = os.getcwd()
        self.addCleanup(os.chdir, folder)
        os.chdir(ROOT)  # the calls name examples/
        calls = [line for line in (ROOT / "README.md").read_text().splitlines() if line.startswith("    mztab.")]
        self.assertEqual(len(calls), 4)
        calls += [line for line in (ROOT / "docs" / "tally.md").read_text().splitlines() if line.startswith("    mztab.")]
        for call in calls:
            code, answer = call.strip().split("  # ")
            found = repr(eval(code, {"mztab": mztab, "open": open}))
            part, dots, _ = answer.partition("...")
            self.assertEqual(found[: len(part)] if dots else found, part)


if __name__ == "__main__":
    unittest.main()
