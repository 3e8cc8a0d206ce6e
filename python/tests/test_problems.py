from __future__ import annotations

import unittest
from decimal import Decimal
from fractions import Fraction
from typing import Any

from psat import Problem, ProblemError
from psat.problems import formula_text, note_text, value_text


class Problems(unittest.TestCase):
    def test_text_has_a_line_for_each_item(self) -> None:
        problem = (
            Problem()
            .at_least("rain", Fraction(3, 10))
            .exactly("wet", "0.90", given="rain", note="as Ann says")
            .at_most("storm & !rain", 0.25)
            .between("wind", Decimal("0.1"), Fraction(1, 2))
            .always("storm -> wind")
            .never("snow & true")
            .query("wet", given="wind")
        )
        self.assertEqual(
            str(problem).splitlines(),
            [
                "psat 1;",
                "P(rain) >= 3/10;",
                "P(wet given rain) = 0.90;  # as Ann says",
                "P(storm & !rain) <= 0.25;",
                "P(wind) in [0.1, 1/2];",
                "P(storm -> wind) = 1;",
                "P(snow & true) = 0;",
                "query P(wet given wind);",
                "end;",
            ],
        )

    def test_sum_makes_a_text_of_version_2(self) -> None:
        problem = (
            Problem(names=["a", "b", "c"])
            .exactly("c", 0.5)
            .at_least({"a": 1, "b": -1}, 0, note="the ranking")
            .at_most({"a & c": -2, " b  &c ": "-1/3"}, Fraction(-1, 2))
            .between({"a": 1.5, "b": Decimal("1"), "c": "0.50"}, "-0.9", 1_000_000)
            .exactly({"true": 1}, 1)
            .query("b")
        )
        self.assertEqual(
            str(problem).splitlines(),
            [
                "psat 2;",
                "P(c) = 0.5;",
                "1 P(a) - 1 P(b) >= 0;  # the ranking",
                "- 2 P(a & c) - 1/3 P(b &c) <= -1/2;",
                "1.5 P(a) + 1 P(b) + 0.50 P(c) in [-0.9, 1000000];",
                "1 P(true) = 1;",
                "query P(b);",
                "end;",
            ],
        )

    def test_refused_sum_leaves_the_problem_as_it_was(self) -> None:
        problem = Problem(names=["a", "b"])
        hostile: tuple[Any, ...] = (
            *({}, {"a": None}, {"a": 1, "c": 1}, {"a": "x"}, {"a": "--1"}, {"a": float("nan")}),
            *({"a": 1_000_001}, {"a": "-1000001"}, {"a": Decimal("-Infinity")}, {"a given b": 1}),
            {"!" * n + "a": 1 for n in range(17)},
        )
        for terms in hostile:
            with self.subTest(terms), self.assertRaises(ProblemError):
                problem.at_least(terms, 0)
        for value in (None, "1 000", 2_000_000, Decimal("sNaN"), "-1/1000001"):
            with self.subTest(value), self.assertRaises(ProblemError):
                problem.between({"a": 1}, 0, value)  # type: ignore[arg-type]
        with self.assertRaisesRegex(ProblemError, "a sum has no condition"):
            problem.at_most({"a": 1}, 0, given="b")
        with self.assertRaisesRegex(ProblemError, "a query asks for one probability"):
            problem.query({"a": 1})  # type: ignore[arg-type]
        self.assertEqual(str(problem), "psat 1;\nend;\n")

    def test_note_stays_a_comment_on_its_line(self) -> None:
        hostile = 'one\n; P(a) = 1; end;\r\n\x0b\x85\u2028two "#" \x1b[2J \u202e \ud800'
        text = str(Problem().query("a", note=hostile))
        self.assertEqual(text.count("\n"), 3)
        self.assertEqual(
            text.split("\n")[1], 'query P(a);  # one ; P(a) = 1; end; two "#" ?[2J ? ?'
        )
        self.assertEqual(note_text("  \n "), "")

    def test_names_may_be_declared(self) -> None:
        problem = Problem(names=["rain", "wet"])
        problem.query("rain & wet & true")
        with self.assertRaisesRegex(ProblemError, "rian is none of the names; is rain meant?"):
            problem.query("rian")
        with self.assertRaisesRegex(ProblemError, "snowfall is none of the names$"):
            problem.query("wet", given="snowfall")
        self.assertEqual(str(problem).count("query"), 1)

    def test_declared_names_are_checked(self) -> None:
        for name in ("P", "a b", "", "é", "a\n", "1a", "x" * 33):
            with self.subTest(name), self.assertRaises(ProblemError):
                Problem(names=[name])


class Formulas(unittest.TestCase):
    def test_formulas_that_are_taken(self) -> None:
        for formula in ("a", "!a", "!!a", "(a)", "a->b", "a <-> !(b | c_1) & true", "  a  &\n b "):
            with self.subTest(formula):
                self.assertEqual(formula_text(formula), " ".join(formula.split()))

    def test_formulas_that_are_refused(self) -> None:
        hostile = (
            *("", " ", "!", "()", "a b", "a &", "& a", "a ! b", "(a", "a)", "a)) | ((b", "a && b"),
            *("a) = 1; P(b", "a given b", "a; end;", "a # b", "a\x00", "a\u202e", "P", "in", "1a"),
            *("é", "a = b", "a - b", "a < b", "[a]", '"a"', "a" * 33, "query", "a\u00e4"),
        )
        for formula in hostile:
            with self.subTest(formula), self.assertRaises(ProblemError) as caught:
                formula_text(formula)
            self.assertNotIn("\n", str(caught.exception))

    def test_hint_says_what_to_write(self) -> None:
        with self.assertRaises(ProblemError) as caught:
            formula_text("rain wet")
        self.assertEqual(caught.exception.hint, "write &, |, -> or <->")

    def test_error_is_a_value_error(self) -> None:
        with self.assertRaises(ValueError):
            formula_text("")


class Values(unittest.TestCase):
    def test_values_are_written_as_they_are_meant(self) -> None:
        cases: list[tuple[Any, str]] = [
            *((0, "0"), (1, "1"), (0.3, "0.3"), (1.0, "1"), (0.000001, "0.000001"), (-0.0, "0")),
            *(
                (Fraction(2, 6), "1/3"),
                (Decimal("0.880"), "0.88"),
                (" 0.88 ", "0.88"),
                ("22/25", "22/25"),
            ),
            *(("1", "1"), ("007/8", "007/8"), (Fraction(1, 1_000_000), "1/1000000")),
        ]
        for value, text in cases:
            with self.subTest(value):
                self.assertEqual(value_text(value), text)

    def test_values_that_are_refused(self) -> None:
        hostile: tuple[Any, ...] = (
            *(
                -1,
                2,
                Fraction(-1, 2),
                Fraction(1, 1_000_001),
                0.1 + 0.2,
                float("nan"),
                float("inf"),
            ),
            *(
                Decimal("NaN"),
                Decimal("sNaN"),
                Decimal("1E-999999"),
                Decimal("1E+999999"),
                1e-300,
                None,
                1j,
            ),
            *("", "30%", "0,3", ".5", "1.", "1e-3", "-1", "+1", "1/0", "1/00", "2", "0.3000000"),
            *(
                "1/1000001",
                "1" * 100_000,
                "0." + "1" * 100_000,
                "1/2; end;",
                "1/2\n;",
                "\u0663",
                "1_0",
            ),
        )
        for value in hostile:
            with self.subTest(repr(value)[:40]), self.assertRaises(ProblemError) as caught:
                value_text(value)
            self.assertLess(len(str(caught.exception)), 400)

    def test_hints_on_values(self) -> None:
        for value, hint in (("30%", "write 0.3 for 30%"), ("0,3", "write 0.3 for 0,3")):
            with self.subTest(value), self.assertRaises(ProblemError) as caught:
                value_text(value)
            self.assertEqual(caught.exception.hint, hint)


if __name__ == "__main__":
    unittest.main()
