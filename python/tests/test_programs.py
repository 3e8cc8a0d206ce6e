from __future__ import annotations

import pickle
import unittest
from fractions import Fraction

import psat
from psat.errors import AnswerError

from .samples import CONSISTENT, INCONSISTENT, WithPrograms, answer

MISTYPED = """\
standard input:3:21: found `90`, expected a number from 0 to 1
  P(wet given rain) = 90%;
                      ^
  hint: write 0.3 or 30/100 for 30%
standard input:4:1: found `;`, expected `P`, `query` or `end`
standard input:5:3: found `b`, expected `)`
    hint: b
          ^
"""


class Asking(WithPrograms):
    def test_answer(self) -> None:
        self.program("psat_ask", CONSISTENT, status=4)
        read = psat.ask("psat 1; # é\nend;", digits=3, time_limit=60)
        self.assertEqual(read.queries[0].lower, Fraction(1, 3))
        self.assertEqual(self.kept("input"), "psat 1; # é\nend;")
        self.assertEqual(
            self.kept("words").split(), ["--json", "--digits=3", "--time-limit=60", "-"]
        )

    def test_problem_and_bytes(self) -> None:
        self.program("psat_ask", INCONSISTENT, status=1)
        problem = psat.Problem().query("a")
        self.assertEqual(psat.ask(problem).verdict, "inconsistent")
        self.assertEqual(self.kept("input"), str(problem))
        psat.ask(b"psat 1; # \xff\nend;")
        self.assertEqual((self.folder / "input").read_bytes(), b"psat 1; # \xff\nend;")
        psat.ask("psat 1; # \udcff\nend;")
        self.assertEqual((self.folder / "input").read_bytes(), b"psat 1; # \xff\nend;")

    def test_program_that_is_named(self) -> None:
        named = self.program("mine", CONSISTENT)
        self.assertEqual(psat.ask("", program=named).verdict, "consistent")

    def test_warnings_beside_the_answer(self) -> None:
        told = {"line": 2, "kind": "name", "text": "b is used once"}
        condition = "standard input:4: warning: P(c given d): this one says nothing\n"
        beside = "standard input:2: warning: b is used once\n" + condition
        self.program("psat_ask", answer(warnings=[told]), errors=beside)
        warnings = psat.ask("").warnings
        self.assertEqual([each.kind for each in warnings], ["name", "condition"])
        self.assertEqual(
            (warnings[1].line, warnings[1].text), (4, "P(c given d): this one says nothing")
        )


class Failing(WithPrograms):
    def test_faults_of_a_text(self) -> None:
        self.program("psat_ask", errors=MISTYPED, status=3)
        with self.assertRaises(psat.TextError) as caught:
            psat.ask("")
        error = caught.exception
        self.assertEqual((error.line, error.column), (3, 21))
        self.assertEqual(error.hint, "write 0.3 or 30/100 for 30%")
        self.assertEqual(
            [(each.line, each.column) for each in error.faults], [(3, 21), (4, 1), (5, 3)]
        )
        self.assertIsNone(error.faults[1].hint)
        self.assertIsNone(error.faults[2].hint)
        first = "line 3, column 21: found `90`, expected a number from 0 to 1; hint: "
        self.assertEqual(str(error).split("\n")[0], first + "write 0.3 or 30/100 for 30%")
        again = pickle.loads(pickle.dumps(error))
        self.assertEqual((again.faults, again.line), (error.faults, 3))

    def test_text_without_a_place(self) -> None:
        long = "standard input: the input has more than 1048576 bytes\n"
        self.program("psat_ask", errors=long, status=3)
        with self.assertRaisesRegex(
            psat.TextError, "^the input has more than 1048576 bytes$"
        ) as caught:
            psat.ask("")
        self.assertIsNone(caught.exception.line)

    def test_no_program(self) -> None:
        for call in (lambda: psat.ask(""), lambda: psat.report("")):
            with self.assertRaisesRegex(psat.ProgramMissing, "psat_ask isn't on the PATH"):
                call()
        with self.assertRaisesRegex(psat.ProgramMissing, "psat isn't on the PATH"):
            psat.check("", "")
        with self.assertRaisesRegex(psat.ProgramMissing, "can't be started: No such file"):
            psat.ask("", program=self.folder / "none")

    def test_other_ends(self) -> None:
        self.program("psat_ask", errors="psat_ask: standard input: not enough memory\n", status=7)
        with self.assertRaisesRegex(psat.ProgramFailed, "not enough memory .status 7.") as caught:
            psat.ask("")
        self.assertEqual(caught.exception.status, 7)
        self.assertEqual(pickle.loads(pickle.dumps(caught.exception)).status, 7)
        killed = self.folder / "killed"
        killed.write_text("#!/bin/sh\nkill -TERM $$\n")
        killed.chmod(0o755)
        with self.assertRaisesRegex(
            psat.ProgramFailed, "nothing was answered .ended by signal 15."
        ):
            psat.ask("", program=killed)

    def test_another_program(self) -> None:
        for output in ("", "consistent\n", "{}\n"):
            self.program("psat_ask", output)
            with self.subTest(output), self.assertRaises((AnswerError, psat.PsatError)):
                psat.ask("")


class Checking(WithPrograms):
    def test_accepted(self) -> None:
        self.program("psat", "accepted: claims 3, open 1\n")
        judgement = psat.check("psat 1; end;", "report 1\n")
        self.assertTrue(judgement)
        self.assertEqual((judgement.claims, judgement.open), (3, 1))
        self.assertEqual(self.kept("words").split(), ["check"])
        self.assertEqual(self.kept("input"), "psat 1; end;\nreport 1\n")

    def test_refused(self) -> None:
        self.program("psat", "refused verdict total-wrong\n", status=8)
        judgement = psat.check("", "")
        self.assertFalse(judgement)
        self.assertEqual(judgement.message, "refused verdict total-wrong")

    def test_no_problem(self) -> None:
        self.program("psat", "unreadable: expected ; at 2:5\n", status=3)
        with self.assertRaises(psat.TextError) as caught:
            psat.check("", "")
        self.assertEqual((caught.exception.line, caught.exception.column), (2, 5))
        self.program("psat", "unreadable: more than 9 bytes\n", status=3)
        with self.assertRaisesRegex(psat.TextError, "more than 9 bytes"):
            psat.check("", "")

    def test_never_accepted_by_another_status(self) -> None:
        self.program("psat", "accepted: claims 3, open 1\n", status=6)
        with self.assertRaises(psat.ProgramFailed):
            psat.check("", "")
        self.program("psat", "fine\n")
        with self.assertRaises(psat.ProgramFailed):
            psat.check("", "")


if __name__ == "__main__":
    unittest.main()
