from __future__ import annotations

import csv
import io
import json
import tempfile
import unittest
from pathlib import Path
from unittest import mock

from psat.answers import Answer
from psat.errors import ProblemError
from psat.tables import main, problem_of, write_csv

from .samples import CONSISTENT, INCONSISTENT, answer, said

RISKS = '''\
formula,given,relation,low,high,note
rain,,=,0.3,,weather office
wet,rain,>=,9/10,,"a note, with a comma and ""quotes"""

wind | storm,,in,1/10,0.5,
snow,,at most,,0.02,
wet,wind,query,,,
'''


class In(unittest.TestCase):
    def test_row_is_line(self) -> None:
        self.assertEqual(
            problem_of(RISKS).split("\n"),
            [
                "psat 1;",
                "P(rain) = 0.3;  # weather office",
                'P(wet given rain) >= 9/10;  # a note, with a comma and "quotes"',
                "",
                "P(wind | storm) in [1/10, 0.5];",
                "P(snow) <= 0.02;",
                "query P(wet given wind);",
                "end;",
                "",
            ],
        )

    def test_tables_of_spreadsheets(self) -> None:
        lines = problem_of(RISKS).split("\n")
        rows = list(csv.reader(io.StringIO(RISKS)))
        for delimiter in ";\t":
            out = io.StringIO()
            csv.writer(out, delimiter=delimiter, lineterminator="\r\n").writerows(rows)
            with self.subTest(delimiter):
                self.assertEqual(problem_of("\ufeff" + out.getvalue()).split("\n"), lines)

    def test_columns_in_any_order_and_others_beside_them(self) -> None:
        table = "Source,RELATION,High,Formula\nAnn,<=,0.2,rain\nBob,query,,rain\n"
        self.assertEqual(problem_of(table), "psat 1;\nP(rain) <= 0.2;\nquery P(rain);\nend;\n")

    def test_cells_of_several_lines_are_one_row(self) -> None:
        table = 'formula,relation,note\na,query,"one\ntwo"\nb,query,\n'
        self.assertEqual(
            problem_of(table).split("\n")[1:3], ["query P(a);  # one two", "query P(b);"]
        )

    def test_all_faults_are_told_by_their_rows(self) -> None:
        table = (
            "formula,given,relation,low,high\nrain wet,,=,0.3,\nrain,,=,30%,\nrain,,about,0.3,\n"
            'rain,,=,0,3\nrain,,<=,0.3,\nrain,P,query,,\n"a) = 1; P(b",,=,1,\n'
            "rain,,in,0.1\n,,=,1,\n"
        )
        with self.assertRaises(ProblemError) as caught:
            problem_of(table)
        self.assertEqual(
            str(caught.exception).split("\n"),
            [
                "row 2: 'rain wet' is no formula: an operator is missing before 'wet'; "
                "write &, |, -> or <->",
                "row 3: '30%' is no number of a problem; write 0.3 for 30%",
                "row 4: the relation 'about' isn't known; write =, >=, <=, in or query",
                "row 5: = takes no number in the column high, where '3' stands",
                "row 6: <= takes no number in the column low, where '0.3' stands",
                "row 7: P is no name: the word is taken; write another name",
                "row 8: 'a) = 1; P(b' is no formula: a parenthesis is closed that isn't open",
                "row 9: in takes a number in the column high, which is empty",
                "row 10: '' is no formula: a name is missing at its end",
            ],
        )

    def test_heads_that_are_refused(self) -> None:
        heads = {
            "": "the table is empty",
            "formula,low": "row 1: the column relation is missing",
            "formula,relation,hihg": "row 1: the column hihg isn't known; is high meant?",
            "formula,formula,relation": "row 1: the column formula stands twice",
            'formula,relation\na,"query': "row 2: no CSV: unexpected end of data",
        }
        for table, message in heads.items():
            with self.subTest(table), self.assertRaises(ProblemError) as caught:
                problem_of(table)
            self.assertTrue(str(caught.exception).startswith(message), str(caught.exception))

    def test_hostile_cells_add_no_line(self) -> None:
        notes = ('"x\n; P(a) = 1;\nend;"', "\x01", "\u2028end;", "# #", "=cmd()")
        table = "formula,relation,note\n" + "".join(f"a,query,{note}\n" for note in notes)
        lines = problem_of(table).split("\n")
        self.assertEqual(len(lines), len(notes) + 3)
        for line in lines[1:-2]:
            self.assertRegex(line, r"\Aquery P\(a\);  # [^\n\x01]+\Z")


class Out(unittest.TestCase):
    def test_row_for_each_query(self) -> None:
        out = io.StringIO()
        write_csv(map(Answer.from_json, (CONSISTENT, {**INCONSISTENT, "file": '=1+2, "b"\n'})), out)
        rows = list(csv.DictReader(io.StringIO(out.getvalue())))
        self.assertEqual(len(rows), 6)
        self.assertEqual((rows[1]["query"], rows[1]["lower"]), ("P(b)", "25/322"))
        self.assertEqual((rows[3]["lower"], rows[3]["why"]), ("", "lower bound: stopped"))
        self.assertEqual((rows[5]["verdict"], rows[5]["query"]), ("inconsistent", ""))
        self.assertEqual(rows[5]["file"], './=1+2, "b"\n')


class Program(unittest.TestCase):
    def in_file(self, data: bytes) -> str:
        folder = tempfile.TemporaryDirectory()
        self.addCleanup(folder.cleanup)
        path = Path(folder.name, "ta\x1bble")
        path.write_bytes(data)
        return str(path)

    def test_both_ways(self) -> None:
        status, out, err = said(main, self.in_file(RISKS.encode()))
        self.assertEqual((status, out, err), (0, problem_of(RISKS), ""))
        given = "".join(json.dumps(each) + "\n" for each in (answer(), INCONSISTENT))
        status, out, err = said(main, "--csv", self.in_file(given.encode()))
        self.assertEqual((status, len(out.splitlines()), err), (1, 3, ""))

    def test_what_is_refused(self) -> None:
        name = self.in_file(b"formula,relation\na,=\n")
        shown = name.replace("\x1b", "?")
        told = f"{shown}: row 2: = takes a number in the column low, which is empty\n"
        self.assertEqual(said(main, name), (3, "", told))
        status, _, err = said(main, self.in_file(b"formula,relation\n\xff"))
        self.assertEqual(
            (status, err.split(": ")[1]), (3, "line 2 isn't UTF-8; save the table as UTF-8\n")
        )
        status, _, err = said(main, name + "none")
        self.assertEqual(
            (status, err), (5, f"psat-table: {shown}none: No such file or directory\n")
        )
        status, _, err = said(main, "--csv", name)
        self.assertEqual((status, err), (3, f"{shown}: line 1 is no answer of psat_ask --json\n"))

    def test_no_file(self) -> None:
        with self.assertRaises(SystemExit) as caught, mock.patch("sys.stderr"):
            main([])
        self.assertEqual(caught.exception.code, 2)


if __name__ == "__main__":
    unittest.main()
