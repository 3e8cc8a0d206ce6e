"""With the built programs on the PATH: scripts/test-python puts them there."""
from __future__ import annotations

import contextlib
import io
import re
import shutil
import tempfile
import unittest
from fractions import Fraction
from pathlib import Path

import psat
from psat import pages, tables

DOCUMENT = Path(__file__).parents[2] / "docs" / "python.md"
RAIN = "psat 1;\nP(rain) = 0.3;\nP(wet given rain) = 0.9;\nquery P(wet);\nend;\n"


def said_by(code: str) -> str:
    with contextlib.redirect_stdout(io.StringIO()) as out:
        exec(compile(code, str(DOCUMENT), "exec"), {})
    return out.getvalue()


@unittest.skipUnless(shutil.which("psat_ask") and shutil.which("psat"), "no programs on the PATH")
class Installed(unittest.TestCase):
    def test_bounds(self) -> None:
        # wet has what it has with rain, 27/100, and anything of the 7/10 without
        wet = psat.ask(RAIN).queries[0]
        self.assertEqual((wet.lower, wet.upper), (Fraction(27, 100), Fraction(97, 100)))
        self.assertEqual((wet.text, wet.status), ("P(wet)", "bounds"))

    def test_builder(self) -> None:
        problem = psat.Problem(names=["rain", "wet"]).exactly("rain", 0.3, note="x; end; \n # y")
        problem.exactly("wet", Fraction(9, 10), given="rain").query("wet").query("!wet & rain")
        dry = psat.ask(problem).queries[1]
        self.assertEqual(
            (dry.status, dry.lower, dry.upper), ("one value", Fraction(3, 100), Fraction(3, 100))
        )

    def test_sum(self) -> None:
        # of three that exclude each other the least probable one has a third at most
        problem = psat.Problem().never("a & b | a & c | b & c").query("c")
        problem.at_least({"a": 1, "b": -1}, 0).at_least({"b": 1, "c": -1}, 0)
        least = psat.ask(problem).queries[0]
        self.assertEqual((least.lower, least.upper), (0, Fraction(1, 3)))
        self.assertTrue(psat.check(problem, psat.report(problem)))

    def test_clash(self) -> None:
        problem = psat.Problem().at_least("a", "0.8").at_most("a", "0.7").always("b -> a")
        answer = psat.ask(problem)
        assert answer.clash is not None
        self.assertEqual((answer.verdict, answer.status), ("inconsistent", 1))
        self.assertEqual([each.line for each in answer.clash.sentences], [2, 3])

    def test_error(self) -> None:
        with self.assertRaises(psat.TextError) as caught:
            psat.ask(RAIN.replace("0.9", "90%").replace("query", "qeury"))
        error = caught.exception
        self.assertEqual((error.line, error.column), (3, 21))
        self.assertIn("30%", error.hint or "")
        self.assertEqual([each.line for each in error.faults], [3, 4])

    def test_too_long(self) -> None:
        with self.assertRaisesRegex(psat.TextError, "more than 1048576 bytes") as caught:
            psat.ask("#" * 1_100_000)
        self.assertIsNone(caught.exception.line)

    def test_what_the_program_refuses(self) -> None:
        with self.assertRaisesRegex(psat.ProgramFailed, "--digits takes a number from 1 to 18"):
            psat.ask(RAIN, digits=19)

    def test_warning_on_a_condition(self) -> None:
        warnings = psat.ask("psat 1; P(a) = 0; P(b given a) = 1/2; query P(b); end;").warnings
        self.assertEqual([each.kind for each in warnings], ["condition"])

    def test_report_and_check(self) -> None:
        report = psat.report(RAIN)
        judgement = psat.check(RAIN, report)
        self.assertTrue(judgement)
        self.assertEqual((judgement.claims, judgement.open), (3, 0))
        self.assertFalse(psat.check(RAIN.replace("0.3", "0.4"), report))
        self.assertFalse(psat.check(RAIN, ""))
        with self.assertRaises(psat.TextError):
            psat.check("psat 1; P(", report)

    def test_rows(self) -> None:
        row = psat.ask(RAIN, digits=3).to_rows()[0]
        self.assertEqual(
            (row["query"], row["upper"], row["upper_decimal"]),
            ("P(wet)", Fraction(97, 100), "0.970"),
        )

    def test_table_both_ways(self) -> None:
        problem = tables.problem_of(
            "formula,given,relation,low,high,note\nrain,,=,0.3,,\nwet,rain,=,0.9,,\nwet,,query,,,\n"
        )
        out = io.StringIO()
        tables.write_csv([psat.ask(problem)], out)
        self.assertEqual(
            out.getvalue().splitlines()[1],
            "standard input,consistent,P(wet),bounds,27/100,97/100,0.270000,0.970000,",
        )

    def test_row_in_messages(self) -> None:
        rows = "".join(f"a{number},,=,1,,\n" for number in range(101))
        problem = tables.problem_of("formula,given,relation,low,high,note\n" + rows)
        with self.assertRaisesRegex(psat.TextError, "^line 102, column 1: .* 100 bounds"):
            psat.ask(problem)

    def test_page(self) -> None:
        with tempfile.TemporaryDirectory() as folder:
            problem = Path(folder, "rain.psat")
            problem.write_text(RAIN)
            with contextlib.redirect_stdout(io.StringIO()) as out:
                self.assertEqual(pages.main([str(problem)]), 0)
        self.assertIn("between 27/100 and 97/100 (0.270000 to 0.970000)", out.getvalue())
        self.assertIn("<code>accepted: claims 3, open 0</code>", out.getvalue())

    def test_documents(self) -> None:
        blocks = re.findall(r"(?m)(?:^    .*\n|^\n(?=    ))+", DOCUMENT.read_text(encoding="utf-8"))
        said = [re.sub(r"(?m)^    ", "", block).strip() for block in blocks]
        examples = [at for at, block in enumerate(said) if block.startswith("import psat")]
        self.assertGreaterEqual(len(examples), 3)
        for at in examples:
            with self.subTest(said[at]):
                self.assertEqual(said_by(said[at]).strip(), said[at + 1])


if __name__ == "__main__":
    unittest.main()
