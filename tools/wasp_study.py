"""Studies: a deck with a table of edits, each planned and judged, and one table of what came out."""

import csv
import os
import re

from wasp_command import read_bytes
from wasp_runs import path_of, prepare, run_all, status_of
from wasp_tables import csv_text
from wasp_text import Fault, Unreadable, read_report, read_script, read_step

NAME_FORM = re.compile(r"[A-Za-z0-9_][A-Za-z0-9_.-]{0,63}\Z")
MOST_CHECKS, MOST_LINES = 64, 90000
HEADER = ["name", "plan", "case", "total (dollars)", "chosen counts by year, or why there is no plan", "verdict"]


def read_edits(path):
    """The studies of a table: a name, and the steps of its statements, in the order of the columns."""
    text = read_bytes(path).decode("latin-1").removeprefix("\xef\xbb\xbf")
    reader = csv.reader(text.splitlines())
    studies = {}
    for row in reader:
        cells = [cell.strip() for cell in row]
        if not any(cells) or (reader.line_num == 1 and cells[0] == "name"):
            continue
        if not NAME_FORM.match(cells[0]):
            raise Unreadable(path, reader.line_num, f"'{cells[0]}' is no name of 1 to 64 letters, digits, _, - or .")
        if cells[0] in studies:
            raise Unreadable(path, reader.line_num, f"there are two studies {cells[0]}")
        studies[cells[0]] = [step for cell in cells[1:] for step in _read_cell(path, reader.line_num, cell)]
    if not studies:
        raise Unreadable(path, 1, "there is no study")
    return studies


def _read_cell(path, line, cell):
    """The steps of a cell, which holds statements and DROP lines parted by semicolons."""
    steps = []
    for text in cell.split(";"):
        try:
            step = read_step(line, text.strip())
            if step and step.kind not in ("SET", "DROP"):
                raise Fault(f"{step.kind} is no edit of a deck")
        except Fault as fault:
            raise Unreadable(path, line, f"'{text.strip()}': {fault}") from None
        steps += [step] if step else []
    return steps


def study_steps(deck, edits):
    """The steps of a deck with the edits before its first PLAN line."""
    first = [step.kind for step in deck].index("PLAN")
    return deck[:first] + edits + deck[first:]


def script(lines):
    """A script of these lines."""
    return "".join(line + "\n" for line in lines + ["END"])


def check_scripts(steps, report):
    """The scripts that have each case of a report judged, with the plan and case of each of their CHECK lines."""
    plans = iter(report.plans)
    scripts, edits, lines, asked = [], [], [], []
    for step in steps:
        if step.kind != "PLAN":
            edits.append(step.text)
            lines.append(step.text)
            continue
        plan = next(plans)
        for case in plan.cases:
            if len(asked) == MOST_CHECKS or len(lines) + len(case.lines) > MOST_LINES:
                scripts.append((lines, asked))
                lines, asked = list(edits), []
            lines += [f"CHECK {case.number}", *case.lines, "ENDCHECK"]
            asked.append((plan.number, case.number))
    scripts.append((lines, asked))
    return [(script(lines), asked) for lines, asked in scripts if asked]


def read_verdicts(text, asked):
    """The verdict of each plan and case from what `wasp4 check` printed; what is not there has none."""
    verdicts = {}
    for number, (plan, case) in enumerate(asked, 1):
        front = f"CHECK {number} CASE {case} "
        said = [line[len(front):] for line in text.split("\n") if line.startswith(front)]
        verdicts[plan, case] = said[0] if said else "NOT CHECKED"
    return verdicts


class Study:
    """One study: its name, its steps, its report once it is planned, and the runs that judge it."""

    def __init__(self, folder, name, steps):
        self.folder, self.name, self.steps = folder, name, steps
        self.run = f"{name}/plan"
        self.report = None
        self.problem = ""
        self.checks = []

    def prepare_plan(self, resume):
        """The run that plans it, in a list, empty where it has finished before."""
        return [self.run] if prepare(self.folder, self.run, script([step.text for step in self.steps]), resume) else []

    def prepare_checks(self, resume):
        """Reads the report, and gives the runs that judge it."""
        status = status_of(self.folder, self.run)
        if status not in (0, 2):
            self.problem = "CUT OFF" if status is None else f"FAILED {status}"
            return []
        path = path_of(self.folder, self.run, "out")
        try:
            self.report = read_report(path, read_bytes(path))
            plans = sum(step.kind == "PLAN" for step in self.steps)
            if self.report.malformed:
                self.problem = " ".join(("MALFORMED",) + self.report.malformed)
            elif len(self.report.plans) != plans:
                self.problem = f"UNREADABLE: {len(self.report.plans)} plans of {plans}"
        except Unreadable as fault:
            self.problem = f"UNREADABLE line {fault.line}: {fault.what}"
        return [] if self.problem else self._prepare_each_check(resume)

    def _prepare_each_check(self, resume):
        runs = []
        for number, (text, asked) in enumerate(check_scripts(self.steps, self.report), 1):
            run = f"{self.name}/check{number}"
            self.checks.append((run, asked))
            runs += [run] if prepare(self.folder, run, text, resume) else []
        return runs

    def verdicts(self):
        """The verdict of each plan and case."""
        verdicts = {}
        for run, asked in self.checks:
            whole = status_of(self.folder, run) in (0, 1)
            text = read_bytes(path_of(self.folder, run, "out")).decode("latin-1") if whole else ""
            verdicts.update(read_verdicts(text, asked))
        return verdicts

    def rows(self):
        """Its rows of the table of studies."""
        if self.problem:
            return [[self.name, "", "", "", self.problem, ""]]
        verdicts = self.verdicts()
        rows = []
        for plan in self.report.plans:
            if plan.refusal:
                words = " ".join(str(word) for word in plan.refusal)
                rows.append([self.name, plan.number, "", "", f"REFUSED {words}", ""])
            for case in plan.cases:
                chosen = "; ".join(" ".join(str(count) for count in year.counts) for year in case.years)
                rows.append([self.name, plan.number, case.number, "" if case.total is None else case.total,
                             chosen or f"INFEASIBLE {case.infeasible}", verdicts[plan.number, case.number]])
        return rows

    def is_sound(self):
        """Whether it was planned, and every case of it judged YES."""
        return not self.problem and all(verdict == "YES" for verdict in self.verdicts().values())


def run_studies(words):
    """Runs all studies and writes their table; the exit status is 0 where all are sound, and else 1."""
    deck = read_script(words.deck, read_bytes(words.deck))
    if not any(step.kind == "PLAN" for step in deck):
        raise Unreadable(words.deck, 1, "there is no PLAN line")
    edits = read_edits(words.edits)
    studies = [Study(words.folder, name, study_steps(deck, steps)) for name, steps in edits.items()]
    runs = [run for study in studies for run in study.prepare_plan(words.resume)]
    run_all(words.folder, "plan", runs, words.jobs, words.sshlogin)
    runs = [run for study in studies for run in study.prepare_checks(words.resume)]
    run_all(words.folder, "check", runs, words.jobs, words.sshlogin)
    text = csv_text(HEADER, [row for study in studies for row in study.rows()])
    path = os.path.join(words.folder, "studies.csv")
    with open(path, "w", encoding="latin-1", newline="") as sink:
        sink.write(text)
    sound = sum(study.is_sound() for study in studies)
    print(f"{path}: {len(studies)} studies, {sound} of them answered with no verdict but YES")
    return 0 if sound == len(studies) else 1
