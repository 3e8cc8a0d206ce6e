from __future__ import annotations

import json
import unittest
from html.parser import HTMLParser
from pathlib import Path
from typing import Any

from psat.answers import Answer
from psat.pages import Shown, main, page, values_of

from .samples import (
    CONSISTENT,
    INCONSISTENT,
    OPEN,
    WithPrograms,
    answer,
    clash,
    open_side,
    query,
    said,
    side,
)

TAGS = set(
    "html head meta title style body h1 h2 p a ul ol li code pre div span "
    "svg desc defs pattern line rect path use text".split()
)
HOSTILE = (
    "<script>alert(1)</script>",
    "</style></title></code></pre><img src=x onerror=alert(1)>",
    "\"' onmouseover='x' &lt; &amp; &#0; ]]> <!-- -->",
    "\x1b[2J \x00 \u202e \u2028 \ud800",
)


class Read(HTMLParser):
    """The tags, attributes and texts of a page."""

    def __init__(self, html: str) -> None:
        super().__init__()
        self.tags: list[str] = []
        self.attributes: list[tuple[str, str | None]] = []
        self.texts: list[str] = []
        self.feed(html)
        self.close()

    def handle_starttag(self, tag: str, attrs: list[tuple[str, str | None]]) -> None:
        self.tags.append(tag)
        self.attributes += attrs

    def handle_data(self, data: str) -> None:
        self.texts.append(data)


def shown(text: str, given: dict[str, Any], report: bytes | None = None) -> Shown:
    return Shown("rain.psat", text.encode(), Answer.from_json(given), report)


class Pages(unittest.TestCase):
    def test_nothing_of_the_input_is_markup(self) -> None:
        for hostile in HOSTILE:
            warning = {"line": 1, "kind": "name", "text": hostile}
            sentences = {**clash(1), "sentences": [{**clash(1)["sentences"][0], "text": hostile}]}
            given = answer(
                why=hostile,
                queries=[query(hostile, "open", None, None, hostile)],
                clash=sentences,
                warnings=[warning],
            )
            report, name = hostile.encode("utf-8", "surrogatepass"), hostile.replace(
                "/", ""
            ).replace("\x00", "")
            all_of_it = Shown(name, b"# " + report, Answer.from_json(given), report, name, hostile)
            html = page(all_of_it)
            read = Read(html)
            with self.subTest(hostile):
                self.assertLessEqual(set(read.tags), TAGS)
                self.assertEqual([name for name, _ in read.attributes if name.startswith("on")], [])
                self.assertEqual(html.count("<style>"), 1)
                self.assertNotRegex(
                    html, "[\x00-\x08\x0b-\x1f\x7f-\x9f\u202a-\u202e\u2028\ud800-\udfff]"
                )
                if hostile.isprintable():
                    self.assertGreaterEqual("".join(read.texts).count(hostile), 6)

    def test_nothing_is_loaded(self) -> None:
        read = Read(page(shown("psat 1;\n", CONSISTENT, report=b"report 1\n")))
        self.assertFalse({"script", "link", "img", "iframe", "object"} & set(read.tags))
        names = {name for name, _ in read.attributes}
        self.assertFalse({"src", "style", "xlink:href"} & names)
        links = [value for name, value in read.attributes if name == "href"]
        self.assertTrue(all(link and link.startswith("#") for link in links))

    def test_lines_of_the_text(self) -> None:
        text = "# one\r\npsat 1;\n\nP(a1) = 1;\nend;\n"
        read = Read(page(shown(text, INCONSISTENT)))
        ids = [value for name, value in read.attributes if name == "id"]
        self.assertEqual(ids, [f"line-{number}" for number in range(1, 6)])
        links = {value for name, value in read.attributes if name == "href"}
        self.assertEqual(links, {"#line-2", "#line-4"})
        self.assertEqual(
            [name for name, value in read.attributes if value == "marked"], ["class", "class"]
        )

    def test_verdicts(self) -> None:
        for given, words in (
            (CONSISTENT, "consistent: some distribution meets all sentences"),
            (INCONSISTENT, "inconsistent: no distribution meets all sentences"),
            (
                OPEN,
                "open: whether a distribution meets all sentences isn't known; a search stopped",
            ),
        ):
            with self.subTest(words):
                self.assertIn(words, Read(page(shown("", given))).texts)

    def test_values_in_words(self) -> None:
        words = [values_of(each) for each in Answer.from_json(CONSISTENT).queries]
        self.assertEqual(
            words,
            [
                "between 1/3 and 1",
                "one value: 25/322",
                "impossible: the sentences give the condition probability 0",
                "at most 1/2; the lower bound is open, at most 2/5",
                "open",
            ],
        )
        stopped = [open_side("stopped", proved, "2/5", "0.40") for proved in "01"]
        read = Answer.from_json(answer(queries=[query("P(a)", "open", *stopped, "stopped")]))
        self.assertEqual(
            values_of(read.queries[0]),
            "the lower bound is open, at most 2/5; the upper bound is open, at least 2/5",
        )
        anything = query("P(a)", "bounds", side("0", "0.0"), side("1", "1.0"))
        read = Answer.from_json(answer(queries=[anything])).queries[0]
        self.assertEqual(values_of(read), "nothing follows: anything from 0 to 1")

    def test_picture_has_what_is_known(self) -> None:
        html = page(shown("", CONSISTENT))
        interval = '<rect class="interval" x="33.333%" y="24" width="66.667%" height="14"></rect>'
        self.assertIn(interval, html)
        self.assertEqual(html.count("<use "), 1)
        self.assertEqual(html.count('class="unknown"'), 2)
        self.assertEqual(html.count('class="track"'), 5)

    def test_clash_that_is_open(self) -> None:
        given = answer(verdict="inconsistent", clash=clash(irreducible=False, why="stopped"))
        self.assertIn("Which ones clash isn't known; stopped", Read(page(shown("", given))).texts)

    def test_long_report_is_cut_off(self) -> None:
        report = "".join(f"line {number}\n" for number in range(1000)).encode()
        html = page(shown("", CONSISTENT, report=report))
        self.assertIn("line 19\nand 980 more lines</pre>", html)


class Program(WithPrograms):
    def file(self, name: str, text: str) -> str:
        path = Path(self.folder, name)
        path.write_text(text, encoding="utf-8")
        return str(path)

    def test_asks(self) -> None:
        self.program("psat_ask", answer())
        problem = self.file("it's", "psat 1; end;")
        status, out, err = said(main, problem, "--", "--digits", "3")
        self.assertEqual((status, err), (0, ""))
        self.assertEqual(self.kept("words").split("\n")[2:], ["--digits", "3", "-", ""])
        self.assertIn("There is none: time was over", out)

    def test_answers_of_a_file(self) -> None:
        problem, other = self.file("p", "psat 1; end;"), self.file("q", "psat 1; end;")
        lines = [{**answer(), "file": problem}, {**INCONSISTENT, "file": other}]
        given = self.file("json", "".join(json.dumps(each) + "\n" for each in lines))
        status, out, err = said(main, "--answer", given, other)
        self.assertEqual((status, err), (0, ""))
        self.assertIn("inconsistent: no distribution", out)
        status, _, err = said(main, "--answer", given, given)
        self.assertEqual((status, err), (3, f"psat-page: {given} has 0 answers to {given}\n"))

    def test_commands_quote_names(self) -> None:
        self.program("psat_ask", answer())
        problem = self.file("it's; rm -r x", "psat 1; end;")
        given = self.file("json", json.dumps(answer()))
        _, out, _ = said(main, "--answer", given, "--report", problem, problem)
        quoted = "'\"'\"'".join(problem.split("'"))
        commands = "".join(Read(out).texts)
        self.assertIn(f"{{ cat '{quoted}'; echo; cat '{quoted}'; }} | psat check", commands)

    def test_failures(self) -> None:
        problem = self.file("p", "psat 1;")
        status, _, err = said(main, problem)
        self.assertEqual((status, err.split(":")[0]), (127, "psat-page"))
        self.program("psat_ask", errors="standard input:1:8: found the end\n  psat 1;\n", status=3)
        status, _, err = said(main, problem)
        self.assertEqual((status, err), (3, f"{problem}: line 1, column 8: found the end\n"))
        self.program("psat_ask", errors="psat_ask: not enough memory\n", status=7)
        self.assertEqual(said(main, problem)[0], 7)
        status, _, err = said(main, problem + "none")
        self.assertEqual(
            (status, err), (5, f"psat-page: {problem}none: No such file or directory\n")
        )

    def test_words_that_are_refused(self) -> None:
        for words in (
            [],
            ["--report", "r", "p"],
            ["--answer", "a", "p", "--", "--digits=3"],
            ["--none", "p"],
        ):
            with self.subTest(words), self.assertRaises(SystemExit) as caught:
                said(main, *words)
            self.assertEqual(caught.exception.code, 2)


if __name__ == "__main__":
    unittest.main()
