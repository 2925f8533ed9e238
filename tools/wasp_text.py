"""Reads the planner's scripts and reports, line by line as docs/FORMATS.md defines them.

`read_script` reads a deck with its PLAN lines, `decks_of` gives the deck that stands at each of them, and
`read_report` reads a report. What is not the defined text raises `Unreadable`, which names the file and the line.
"""

import re
from dataclasses import dataclass, field

from wasp_forms import Fault, NAME_FORM, read_drop, read_statement

GREATEST_LINE = 4096
MOST_LINES = 100000
MOST_PLANS = 64
PLAIN_NUMBER = re.compile(r"(0|[1-9][0-9]*)\Z")
TERM_NAMES = ("investment", "salvage", "fuel stock", "fuel", "operation and maintenance", "energy not served")


class Unreadable(Exception):
    """A line that is not what docs/FORMATS.md defines."""

    def __init__(self, path, line, what):
        super().__init__(f"{path}, line {line}: {what}")
        self.path = path
        self.line = line
        self.what = what


# Scripts ----------------------------------------------------------------------------------------------------------


@dataclass
class Step:
    """A line of a script that says something: what it does, and for a statement or DROP its head and fields."""

    line: int
    text: str
    kind: str
    head: tuple = ()
    fields: tuple = ()


@dataclass
class Deck:
    """The statements that stand at a PLAN line, by their heads."""

    path: str
    line: int
    statements: dict = field(default_factory=dict)


def lines_of(data):
    """The lines of a file's bytes, each byte one character; a carriage return at the end of a line is kept."""
    lines = data.decode("latin-1").split("\n")
    return lines[:-1] if lines[-1] == "" else lines


def words_of(text):
    """The words of a line; none where it is blank or a comment. A byte outside the grammar raises Fault."""
    words = [word for word in re.split(r"[ \t]+", text) if word]
    if not words or words[0].startswith("#"):
        return []
    for byte in text:
        if byte != "\t" and not " " <= byte <= "~":
            raise Fault(f"byte {ord(byte)} may not stand in a line")
    return words


def read_step(line, text):
    """The step of one line, or None where it is blank or a comment; a faulty line raises Fault."""
    if len(text) > GREATEST_LINE:
        raise Fault("the line has more than 4,096 bytes")
    text = text[:-1] if text.endswith("\r") else text
    words = words_of(text)
    if not words:
        return None
    if words[0] in ("PLAN", "END"):
        if len(words) > 1:
            raise Fault("words are too many")
        return Step(line, text, words[0])
    if words[0] == "DROP":
        return Step(line, text, "DROP", read_drop(words))
    return Step(line, text, "SET", *read_statement(words))


def read_script(path, data):
    """The steps of a script of `wasp4 plan`, up to its END, which is left out."""
    steps = []
    lines = lines_of(data)
    for line, text in enumerate(lines, 1):
        try:
            if line > MOST_LINES:
                raise Fault("the script has more than 100,000 lines")
            step = read_step(line, text)
        except Fault as fault:
            raise Unreadable(path, line, str(fault)) from None
        if step is None:
            continue
        if step.kind == "END":
            return steps
        steps.append(step)
        if step.kind == "PLAN" and sum(s.kind == "PLAN" for s in steps) > MOST_PLANS:
            raise Unreadable(path, line, "there are more than 64 PLAN lines")
    raise Unreadable(path, len(lines) + 1, "END is missing")


def decks_of(path, steps):
    """The deck that stands at each PLAN line of a script."""
    decks = []
    standing = {}
    for step in steps:
        if step.kind == "SET":
            standing[step.head] = step.fields
        elif step.kind == "DROP":
            standing.pop(step.head, None)
        else:
            decks.append(Deck(path, step.line, dict(standing)))
    return decks


# Reports ----------------------------------------------------------------------------------------------------------


@dataclass
class Year:
    """What a report says of a year of the chosen plan; `line` is that of its CHOSEN line."""

    number: int
    line: int
    counts: tuple
    edge: str
    terms: tuple
    risk: tuple
    short: tuple
    generation: list

    def cost(self):
        """What the year costs: I - S + L + F + M + O."""
        return sum(self.terms) - 2 * self.terms[1]


@dataclass
class Case:
    """A case of a report: the years of its plan and the total, or the year that no plan reaches."""

    number: int
    line: int
    years: list
    total: int = None
    infeasible: int = None
    come: list = field(default_factory=list)
    lines: list = field(default_factory=list)


@dataclass
class Plan:
    """The answer to a PLAN line: the words of its refusal, or its cases."""

    number: int
    line: int
    refusal: tuple = None
    cases: list = field(default_factory=list)


@dataclass
class Report:
    """A whole report; `malformed` has the words of the line that says so, or is empty, and `line` is its number."""

    path: str
    plans: list
    malformed: tuple
    line: int
    keys: int


class Rows:
    """The lines of a report, taken one after the other."""

    def __init__(self, path, data):
        self.path = path
        self.lines = lines_of(data)
        self.at = 0
        if data and not data.endswith(b"\n"):
            raise Unreadable(path, len(self.lines), "the line is cut off")

    def fault(self, what):
        """Says what is wrong with the line that was taken last."""
        raise Unreadable(self.path, max(self.at, 1), what)

    def word(self):
        """The first word of the next line, or nothing at the end."""
        return self.lines[self.at].split(" ")[0] if self.at < len(self.lines) else ""

    def take(self, word, size=None):
        """The words behind `word` in the next line, which must begin with it and have `size` of them."""
        words = self.lines[self.at].split(" ") if self.at < len(self.lines) else [""]
        self.at += 1
        if words[0] != word:
            self.fault(f"{word} is due, and '{words[0]}' stands here")
        if size is not None and len(words) != size + 1:
            self.fault(f"{size} words are due behind {word}, and {len(words) - 1} stand here")
        return words[1:]

    def number(self, word):
        """The value of a word of the line that was taken last."""
        if not PLAIN_NUMBER.match(word):
            self.fault(f"'{word}' is no number")
        return int(word)

    def numbers(self, word, size=None):
        """The numbers behind `word` in the next line."""
        return tuple(self.number(each) for each in self.take(word, size))

    def yearly(self, word, year, size=None):
        """The numbers behind `word` and this year in the next line."""
        numbers = self.numbers(word, size)
        if len(numbers) < 2 or numbers[0] != year:
            self.fault(f"{word} {year} with its numbers is due here")
        return numbers[1:]


def _read_generation(rows, year):
    generation = []
    while rows.word() == "GEN":
        of_year, plant, name, energy = rows.take("GEN", 4)
        if rows.number(of_year) != year or not re.match(r"[PTH][1-9][0-9]?\Z", plant) or not NAME_FORM.match(name):
            rows.fault(f"GEN {year} with a plant, its name and its energy is due here")
        generation.append((plant, name, rows.number(energy)))
    return generation


def _read_year(rows, year):
    line = rows.at + 1
    counts = rows.yearly("CHOSEN", year)
    of_year, edge = rows.take("EDGE", 2)
    if rows.number(of_year) != year or not re.match(r"[.+=-]+\Z", edge) or len(edge) != len(counts):
        rows.fault(f"EDGE {year} with a mark for each candidate is due here")
    terms = rows.yearly("TERMS", year, 7)
    risk = rows.yearly("RISK", year, 4)
    short = rows.yearly("SHORT", year) if rows.word() == "SHORT" else ()
    return Year(year, line, counts, edge, terms, risk, short, _read_generation(rows, year))


def _read_come(rows):
    come = []
    while rows.word() == "COME":
        words = rows.take("COME")
        if len(words) < 3:
            rows.fault("COME with a year, counts and a value is due here")
        year, *counts = (rows.number(word) for word in words[:-1])
        value = None if words[-1] == "NONE" else rows.number(words[-1])
        if come and come[-1][:2] >= (year, tuple(counts)):
            rows.fault("the COME lines are not in rising order")
        come.append((year, tuple(counts), value))
    return come


def _read_case(rows, number):
    line = rows.at + 1
    if rows.numbers("CASE", 1) != (number,):
        rows.fault(f"CASE {number} is due here")
    case = Case(number, line, [])
    if rows.word() == "INFEASIBLE":
        case.infeasible, = rows.numbers("INFEASIBLE", 1)
    else:
        while rows.word() != "TOTAL":
            case.years.append(_read_year(rows, len(case.years) + 1))
        case.total, = rows.numbers("TOTAL", 1)
        if case.total != sum(year.cost() for year in case.years):
            rows.fault("TOTAL is not the sum of the years' TERMS")
    case.come = _read_come(rows)
    case.lines = rows.lines[line - 1:rows.at]
    return case


def _read_plan(rows, number):
    plan = Plan(number, rows.at + 1)
    if rows.numbers("PLAN", 1) != (number,):
        rows.fault(f"PLAN {number} is due here")
    if rows.word() == "REFUSED":
        words = rows.take("REFUSED", 5)
        if not re.match(r"[A-Z]+\Z", words[1]):
            rows.fault(f"'{words[1]}' is no name of a refusal")
        plan.refusal = tuple(word if at == 1 else rows.number(word) for at, word in enumerate(words))
        return plan
    while rows.word() == "CASE" or not plan.cases:
        plan.cases.append(_read_case(rows, len(plan.cases) + 1))
    return plan


def read_report(path, data):
    """The report that these bytes are."""
    rows = Rows(path, data)
    plans = []
    while rows.word() == "PLAN":
        plans.append(_read_plan(rows, len(plans) + 1))
    malformed = tuple(rows.take("MALFORMED", 3)) if rows.word() == "MALFORMED" else ()
    line = rows.at
    keys, = rows.numbers("KEYS", 1)
    if rows.at < len(rows.lines):
        rows.at += 1
        rows.fault("nothing may stand behind KEYS")
    return Report(path, plans, malformed, line, keys)
