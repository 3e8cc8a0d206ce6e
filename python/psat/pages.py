"""One HTML page for an answer, without scripts and without anything from elsewhere."""
from __future__ import annotations

import argparse
import hashlib
import shlex
import sys
from collections.abc import Sequence
from dataclasses import dataclass
from pathlib import Path
from xml.etree.ElementTree import Element

from .answers import Answer, Clash, Query, answers_of
from .commands import NO_PROBLEM, UNREAD, tell
from .elements import element, written
from .errors import AnswerError, ProgramFailed, ProgramMissing, TextError
from .pictures import picture
from .programs import ask_with_report, check

VERDICTS = {
    "consistent": "consistent: some distribution meets all sentences",
    "inconsistent": "inconsistent: no distribution meets all sentences",
    "open": "open: whether a distribution meets all sentences isn't known",
}
WITHOUT = {
    "met": "without it all the others can be met together",
    "clash": "without it another clash stands",
    "unknown": "what the others come to without it isn't known",
}
CLASHING = "They can't be met together; without any one of them the others of these can be."
POLICY = "default-src 'none'; style-src 'unsafe-inline'"
REPORT_LINES = 20
NOT_STARTED = 127
CERTIFICATES = {
    "consistent": "The report has a distribution that meets all sentences, and for each bound one "
    "that reaches it and a proof that no distribution passes it.",
    "inconsistent": "The report has a proof that no distribution meets all sentences. "
    "It doesn't tell which of them clash.",
    "open": "The report tells what left the verdict open, and claims nothing.",
}
CHECKED = "It is checked by a proved program that trusts nobody:"

DESCRIPTION = """\
Writes one HTML page for a problem: its text, the verdict, a picture of all
intervals, sentences that clash, and the certificate with the command that checks
it. The page has no scripts and needs nothing from elsewhere.

psat-page asks psat_ask and has psat check judge the report. Options behind --
go to psat_ask:

    psat-page risks > risks.html
    psat-page risks -- --time-limit 60 > risks.html

With --answer it asks nobody, and shows what psat_ask wrote before:

    psat_ask --json --report risks.report risks > risks.json
    psat-page --answer risks.json --report risks.report risks > risks.html"""

EPILOG = """\
Exit status: 0 the page is written, 2 invalid arguments, 3 the text is no problem
or the file of --answer holds no answer, 5 reading failed, 6 writing failed; else
that of psat_ask, or 127 where it can't be started."""


@dataclass(frozen=True)
class Shown:
    """What a page shows: a problem under the name of its file, its answer, and the report."""

    name: str
    text: bytes
    answer: Answer
    report: bytes | None = None
    report_name: str | None = None
    judgement: str | None = None
    has_report: bool = True

    @property
    def lines(self) -> list[str]:
        lines = self.text.decode("utf-8", "backslashreplace").replace("\r\n", "\n").split("\n")
        return lines if lines[-1] else lines[:-1]


def _open_words(query: Query) -> list[str]:
    """Of each bound that is open, in words: on which side of a value that is reached it lies."""
    low, high = query.lower_side, query.upper_side
    words = []
    if query.lower is None:
        at = f", at most {low.reached.exact}" if low and low.reached else ""
        words.append(f"the lower bound is open{at}")
    if query.upper is None:
        at = f", at least {high.reached.exact}" if high and high.reached else ""
        words.append(f"the upper bound is open{at}")
    return words


def values_of(query: Query) -> str:
    """What is known of a query, in words and exact numbers."""
    low, high = query.lower, query.upper
    if query.status == "impossible":
        return "impossible: the sentences give the condition probability 0"
    if low is None and high is None:
        known = query.lower_side and query.lower_side.reached
        return "; ".join(_open_words(query)) if known else "open"
    if low is None:
        return "; ".join([f"at most {high}", *_open_words(query)])
    if high is None:
        return "; ".join([f"at least {low}", *_open_words(query)])
    if low == high:
        return f"one value: {low}"
    if low == 0 and high == 1:
        return "nothing follows: anything from 0 to 1"
    return f"between {low} and {high}"


def decimals_of(query: Query) -> str | None:
    """The interval in decimals, rounded outward, where both sides are known and not just 0 or 1."""
    low, high = query.lower_side, query.upper_side
    if low is None or high is None or low.exact is None or high.exact is None:
        return None
    if low.exact.denominator == high.exact.denominator == 1:
        return None
    return f"{low.decimal} to {high.decimal}"


def _short_values(query: Query) -> str:
    """What is known of a query as short as a picture needs it: long numbers as decimals."""
    if query.status == "impossible":
        return query.status
    words, decimals = values_of(query), decimals_of(query)
    return decimals if len(words) > 40 and decimals else words


def _link(line: int) -> Element:
    return element("a", f"line {line}", href=f"#line-{line}")


def _verdict(answer: Answer) -> Element:
    why = f"; {answer.why}" if answer.why else ""
    return element("p", VERDICTS[answer.verdict] + why, class_=f"verdict {answer.verdict}")


def _query_item(query: Query) -> Element:
    decimals = decimals_of(query)
    words = values_of(query) + (f" ({decimals})" if decimals else "")
    reasons = [element("p", reason) for reason in query.reasons]
    return element("li", element("code", query.text), element("p", words), *reasons)


def _answers(answer: Answer) -> list[Element]:
    if not answer.queries:
        return []
    drawn = picture(answer.queries, list(map(_short_values, answer.queries)))
    return [
        element("h2", "What follows"),
        element("div", drawn, class_="picture"),
        element("ol", *map(_query_item, answer.queries), class_="answers"),
    ]


def _clash(clash: Clash | None) -> list[Element]:
    if clash is None:
        return []
    heading = element("h2", "Sentences that clash")
    if not clash.irreducible:
        return [heading, element("p", f"Which ones clash isn't known; {clash.why}")]
    items = []
    for each in clash.sentences:
        front, text = f"sentence {each.number}, ", element("code", each.text)
        items.append(
            element("li", front, _link(each.line), ": ", text, f" ({WITHOUT[each.without]})")
        )
    told = CLASHING if len(items) > 1 else "No distribution meets it."
    return [heading, element("ul", *items), element("p", told)]


def _warnings(answer: Answer) -> list[Element]:
    items = []
    for warning in answer.warnings:
        if warning.line is None:
            items.append(element("li", warning.text))
        else:
            items.append(element("li", _link(warning.line), ": ", warning.text))
    return [element("h2", "Warnings"), element("ul", *items)] if items else []


def _marks(answer: Answer) -> dict[int, str]:
    """What is said of lines of the text, by their numbers."""
    marks = {warning.line: "warning" for warning in answer.warnings if warning.line is not None}
    for sentence in answer.clash.sentences if answer.clash else ():
        marks[sentence.line] = "clash"
    return marks


def _text(shown: Shown) -> list[Element]:
    marks, items = _marks(shown.answer), []
    for number, line in enumerate(shown.lines, 1):
        mark = marks.get(number)
        parts = [element("span", str(number), class_="number")]
        if line:
            parts.append(element("code", line))
        if mark:
            parts.append(element("span", mark, class_="mark"))
        attributes = {"class_": "marked"} if mark else {}
        items.append(element("li", *parts, id=f"line-{number}", **attributes))
    return [element("h2", "The problem"), element("ol", *items, class_="text")]


def _file_word(name: str) -> str:
    """A file's name as a word for a shell, which no program takes for an option."""
    return shlex.quote(f"./{name}" if name.startswith("-") else name)


def commands(shown: Shown) -> str:
    """The commands that make the report, unless it is there, and check it."""
    problem = _file_word(shown.name)
    report = _file_word(shown.report_name or f"{Path(shown.name).name}.report")
    making = "" if shown.report_name else f"psat_ask --report {report} {problem}\n"
    return f"{making}{{ cat {problem}; echo; cat {report}; }} | psat check"


def _front(report: bytes) -> str:
    """The first lines of a report, and how many more there are."""
    lines = report.decode("utf-8", "backslashreplace").splitlines()
    more = len(lines) - REPORT_LINES
    return "\n".join(lines[:REPORT_LINES] + ([f"and {more} more lines"] if more > 0 else []))


def _checksums(*named: tuple[str, bytes]) -> Element:
    sums = [(what, hashlib.sha256(data).hexdigest()) for what, data in named]
    return element("ul", *(element("li", f"{what}: ", element("code", sum)) for what, sum in sums))


def _certificate(shown: Shown) -> list[Element]:
    parts = [element("h2", "Certificate")]
    if not shown.has_report:
        told = "There is none: time was over before the answer was whole."
        return [*parts, element("p", told)]
    told = f"{CERTIFICATES[shown.answer.verdict]} {CHECKED}"
    parts += [element("p", told), element("pre", commands(shown))]
    if shown.judgement is not None:
        said = element("code", shown.judgement)
        parts.append(element("p", "When this page was written the answer was ", said, "."))
    if shown.report is not None:
        parts.append(element("p", "Checksums (SHA-256):"))
        parts.append(_checksums(("the problem", shown.text), ("the report", shown.report)))
        parts += [element("p", "The report begins:"), element("pre", _front(shown.report))]
    return parts


def page(shown: Shown) -> str:
    """The page as HTML."""
    style = Path(__file__).with_name("page.css").read_text(encoding="utf-8")
    head = element(
        "head",
        element("meta", charset="utf-8"),
        element("meta", http_equiv="Content-Security-Policy", content=POLICY),
        element("meta", name="viewport", content="width=device-width, initial-scale=1"),
        element("title", f"psat: {shown.name}"),
        element("style", style),
    )
    answer = shown.answer
    body = element(
        "body",
        element("h1", shown.name),
        _verdict(answer),
        *_answers(answer),
        *_clash(answer.clash),
        *_warnings(answer),
        *_text(shown),
        *_certificate(shown),
    )
    return written(element("html", head, body, lang="en"))


def _asked(name: str, options: Sequence[str]) -> Shown:
    """Asks `psat_ask`, and `psat check` for its judgement of the report."""
    text = Path(name).read_bytes()
    answer, report = ask_with_report(text, options)
    if report is None:
        return Shown(name, text, answer, has_report=False)
    return Shown(name, text, answer, report, judgement=check(text, report).message)


def _answer_in(file: str, name: str) -> Answer:
    """The answer in a file: the only one, or that to the problem of this name."""
    answers = answers_of(Path(file).read_text(encoding="utf-8"))
    named = answers if len(answers) == 1 else [each for each in answers if each.file == name]
    if len(named) != 1:
        raise AnswerError(f"{file} has {len(named)} answers to {name}")
    return named[0]


def _shown(asked: argparse.Namespace, options: Sequence[str]) -> Shown:
    if asked.answer is None:
        return _asked(asked.problem, options)
    answer = _answer_in(asked.answer, asked.problem)
    report = None if asked.report is None else Path(asked.report).read_bytes()
    return Shown(asked.problem, Path(asked.problem).read_bytes(), answer, report, asked.report)


def _parser() -> argparse.ArgumentParser:
    parser = argparse.ArgumentParser(
        prog="psat-page",
        usage="psat-page [-h] [--answer JSON [--report REPORT]] PROBLEM [-- OPTION ...]",
        description=DESCRIPTION,
        epilog=EPILOG,
        formatter_class=argparse.RawDescriptionHelpFormatter,
    )
    parser.add_argument("--answer", metavar="JSON", help="what psat_ask --json wrote")
    parser.add_argument("--report", metavar="REPORT", help="the report that goes with it")
    parser.add_argument("problem", metavar="PROBLEM", help="the file of the problem")
    return parser


def _words(words: Sequence[str]) -> tuple[argparse.Namespace, Sequence[str]]:
    """The words of the page, and those behind `--` for `psat_ask`."""
    end = words.index("--") if "--" in words else len(words)
    parser, options = _parser(), words[end + 1 :]
    asked = parser.parse_args(words[:end])
    if asked.answer is None and asked.report is not None:
        parser.error("--report goes with --answer")
    if asked.answer is not None and options:
        parser.error("with --answer nobody is asked, so no options stand behind --")
    return asked, options


def main(words: Sequence[str]) -> int:
    """The program `psat-page`: its exit status."""
    asked, options = _words(words)
    try:
        html = page(_shown(asked, options))
    except OSError as error:
        tell("psat-page", f"{error.filename}: {error.strerror}")
        return UNREAD
    except TextError as error:
        tell(asked.problem, str(error))
        return NO_PROBLEM
    except (AnswerError, UnicodeDecodeError) as error:
        tell("psat-page", str(error))
        return NO_PROBLEM
    except ProgramMissing as error:
        tell("psat-page", str(error))
        return NOT_STARTED
    except ProgramFailed as error:
        tell("psat-page", str(error))
        return max(error.status, 1)
    sys.stdout.write(html)
    return 0
