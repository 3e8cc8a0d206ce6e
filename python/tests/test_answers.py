from __future__ import annotations

import copy
import csv
import io
import json
import unittest
from fractions import Fraction

from psat.answers import Answer, Reached, answers_of
from psat.errors import AnswerError

from .samples import CONSISTENT, INCONSISTENT, OPEN, answer, clash


class Answers(unittest.TestCase):
    def test_bounds_are_fractions(self) -> None:
        read = Answer.from_json(CONSISTENT)
        bounds = [(query.lower, query.upper) for query in read.queries]
        value = Fraction(25, 322)
        self.assertEqual(
            bounds,
            [
                (Fraction(1, 3), 1),
                (value, value),
                (None, None),
                (None, Fraction(1, 2)),
                (None, None),
            ],
        )
        self.assertIsInstance(read.queries[0].upper, Fraction)
        self.assertEqual(read.verdict, "consistent")
        self.assertIsNone(read.clash)

    def test_reasons_of_what_is_open(self) -> None:
        reasons = [query.reasons for query in Answer.from_json(CONSISTENT).queries]
        self.assertEqual(reasons, [(), (), (), ("lower bound: stopped",), ("not finished",)])

    def test_what_is_reached_of_an_open_side(self) -> None:
        sides = [query.lower_side for query in Answer.from_json(CONSISTENT).queries[3:]]
        assert sides[0] and sides[1]
        self.assertEqual(sides[0].proved, Fraction(0))
        self.assertEqual(sides[0].reached, Reached(Fraction(2, 5), "0.40"))
        self.assertEqual((sides[1].proved, sides[1].reached), (Fraction(0), None))

    def test_clash(self) -> None:
        read = Answer.from_json(INCONSISTENT)
        assert read.clash is not None
        self.assertTrue(read.clash.irreducible)
        self.assertEqual([each.line for each in read.clash.sentences], [2, 4])
        self.assertEqual(read.clash.sentences[0].text, "P(a1) = 1;")
        open_clash = answer(verdict="inconsistent", clash=clash(irreducible=False, why="stopped"))
        read = Answer.from_json(open_clash)
        assert read.clash is not None
        self.assertEqual((read.clash.why, read.clash.sentences), ("stopped", ()))

    def test_open_verdict(self) -> None:
        read = Answer.from_json(OPEN)
        self.assertEqual((read.verdict, read.why, read.status), ("open", "a search stopped", 4))

    def test_members_of_later_versions_are_kept_aside(self) -> None:
        later = copy.deepcopy(CONSISTENT)
        later["repair"] = {"by": "1/10"}
        later["queries"][0]["lower"]["rests_on"] = [1]
        read = Answer.from_json(later)
        self.assertEqual(read.queries, Answer.from_json(CONSISTENT).queries)
        self.assertEqual(read.json["repair"], {"by": "1/10"})

    def test_warnings(self) -> None:
        warning = {"line": None, "kind": "name", "text": "b is used once"}
        read = Answer.from_json(answer(warnings=[warning]))
        self.assertEqual(read.warnings[0].text, "b is used once")
        self.assertIsNone(read.warnings[0].line)


class Rows(unittest.TestCase):
    def test_a_row_for_each_query(self) -> None:
        rows = Answer.from_json(CONSISTENT).to_rows()
        self.assertEqual(
            [row["query"] for row in rows], ["P(a)", "P(b)", "P(c given d)", "P(e)", "P(f)"]
        )
        self.assertEqual({tuple(row) for row in rows}, {tuple(rows[0])})
        self.assertEqual(rows[0]["lower"], Fraction(1, 3))
        self.assertEqual(rows[0]["lower_decimal"], "0.33")
        self.assertEqual(rows[3]["why"], "lower bound: stopped")
        self.assertEqual(Answer.from_json(INCONSISTENT).to_rows(), [])

    def test_csv_takes_them(self) -> None:
        rows, out = Answer.from_json(CONSISTENT).to_rows(), io.StringIO()
        writer = csv.DictWriter(out, list(rows[0]))
        writer.writerows(rows)
        self.assertTrue(out.getvalue().startswith("P(a),bounds,1/3,1,0.33,1.00,"))


class Lines(unittest.TestCase):
    def test_one_object_a_line(self) -> None:
        lines = "".join(json.dumps(each) + "\n" for each in (CONSISTENT, INCONSISTENT))
        self.assertEqual(
            [each.verdict for each in answers_of(lines)], ["consistent", "inconsistent"]
        )

    def test_what_is_no_answer(self) -> None:
        wrong = copy.deepcopy(CONSISTENT)
        wrong["queries"][0]["lower"]["exact"] = "1/0"
        for line in ("{}", "[]", "1", "null", "psat 1;", '{"file":', json.dumps(wrong)):
            with self.subTest(line), self.assertRaisesRegex(AnswerError, "line 2 is no answer"):
                answers_of(f"{json.dumps(OPEN)}\n{line}\n")


if __name__ == "__main__":
    unittest.main()
