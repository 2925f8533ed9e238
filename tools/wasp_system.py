"""What a deck says of a year: its candidates, plants, capacity, peaks and limits; and whether a report fits its deck."""

from wasp_text import Unreadable

HOURS = 8760


class System:
    """The deck that stands at a PLAN line, as its statements mean it. Years, cases and periods count from 1."""

    def __init__(self, deck):
        self.deck = deck
        self.years, = self.need("YEARS")
        self.periods, = self.need("PERIODS")
        self.cases, = self.get("CASES") or (1,)
        self.version, = self.get("VERSION") or (1,)
        self.conditions = len(self.get("CONDITIONS") or (10000,))
        self.plants = self.numbers("PLANT")
        self.thermals = self.numbers("THERMAL")
        self.groups = self.numbers("HYDRO")

    def get(self, *head):
        """The fields of the statement with this head, or None."""
        return self.deck.statements.get(head)

    def need(self, *head, size=1):
        """The fields of the statement with this head, which must stand and have at least `size` fields."""
        fields = self.get(*head)
        if fields is None or len(fields) < size:
            name = " ".join(str(part) for part in head)
            what = f"the report has a plan here, and the deck no whole {name}"
            raise Unreadable(self.deck.path, self.deck.line, what)
        return fields

    def numbers(self, word):
        """The numbers of the statements with this word, rising."""
        return sorted(head[1] for head in self.deck.statements if head[0] == word)

    def candidates(self):
        """Each candidate as its mark and name, such as ('T1', 'GAS'), thermal before hydro."""
        thermal = [(f"T{k}", self.need("THERMAL", k)[0]) for k in self.thermals]
        return thermal + [(f"H{g}", self.need("HYDRO", g)[0]) for g in self.groups]

    def existing_units(self, plant, year):
        """The units of an existing plant in a year."""
        units = self.need("PLANT", plant)[1]
        for head, fields in self.deck.statements.items():
            if head[0] in ("ADD", "RETIRE") and head[1] == plant and head[2] <= year:
                units += fields[0] if head[0] == "ADD" else -fields[0]
        return units

    def existing_mw(self, year):
        """The capacity of the existing thermal plants in a year."""
        return sum(self.existing_units(p, year) * self.need("PLANT", p)[3] for p in self.plants)

    def candidate_mw(self, counts):
        """The capacity of the thermal candidates by their counts."""
        return sum(count * self.need("THERMAL", k)[3] for k, count in zip(self.thermals, counts))

    def hydro_mw(self, counts, period):
        """The base and peak blocks of the installed projects in a period under the first hydro condition."""
        total = 0
        for group, count in zip(self.groups, counts[len(self.thermals):]):
            for project in range(1, self.need("HYDRO", group)[1] + count + 1):
                base, peak = self.need("WATER", group, project, period, size=3)[:2]
                total += base + peak
        return total

    def peaks(self, year):
        """The peak of each period of a year."""
        return self.need("LOAD", year, size=2 * self.periods)[0:2 * self.periods:2]

    def critical_period(self, year, counts):
        """The period with the least capacity above its peak, the first of these."""
        peaks = self.peaks(year)
        spare = [self.hydro_mw(counts, period) - peaks[period - 1] for period in range(1, self.periods + 1)]
        return spare.index(min(spare)) + 1

    def limits(self, word, case, year, size=2):
        """The fields of the case's TUNNEL, MARGIN or LOLP that holds in a year."""
        standing = [y for y in range(1, year + 1) if self.get(word, case, y) is not None]
        return self.need(word, case, standing[-1] if standing else 1, size=size)

    def generating(self, year, counts):
        """The mark and name of each plant that has a GEN line in a year, in their order."""
        plants = [(f"P{p}", self.need("PLANT", p)[0]) for p in self.plants if self.existing_units(p, year) > 0]
        thermal = [(f"T{k}", self.need("THERMAL", k)[0]) for k, count in zip(self.thermals, counts) if count > 0]
        hydro = []
        for group, count in zip(self.groups, counts[len(self.thermals):]):
            name, existing = self.need("HYDRO", group)[:2]
            if existing + count > 0:
                hydro.append((f"H{group}", name))
        return plants + thermal + hydro


class Capacity:
    """The capacity of a year's configuration in its critical period, in MW, with the peak there."""

    def __init__(self, system, case, year):
        counts = year.counts
        self.period = system.critical_period(year.number, counts)
        self.peak = system.peaks(year.number)[self.period - 1]
        self.greatest_peak = max(system.peaks(year.number))
        self.existing = system.existing_mw(year.number)
        self.candidates = system.candidate_mw(counts)
        self.hydro = system.hydro_mw(counts, self.period)
        self.total = self.existing + self.candidates + self.hydro
        self.low, self.high = system.limits("MARGIN", case, year.number)


def _fit_year(report, system, case, year):
    def fault(what):
        raise Unreadable(report.path, year.line, f"year {year.number}: {what}, unlike the deck")

    if len(year.counts) != len(system.thermals) + len(system.groups):
        fault(f"{len(year.counts)} candidates")
    if len(year.short) != (system.conditions if system.version == 2 else 0):
        fault(f"{len(year.short)} numbers of SHORT")
    if [line[:2] for line in year.generation] != system.generating(year.number, year.counts):
        fault("GEN lines of other plants")
    Capacity(system, case.number, year)
    system.limits("LOLP", case.number, year.number)
    system.limits("TUNNEL", case.number, year.number, size=2 * len(year.counts))


def _fit_case(report, system, case):
    width = len(system.thermals) + len(system.groups)
    if case.total is not None and len(case.years) != system.years:
        raise Unreadable(report.path, case.line, f"a plan of {len(case.years)} years, unlike the deck")
    if case.infeasible is not None and not 1 <= case.infeasible <= system.years:
        raise Unreadable(report.path, case.line + 1, "a year that the deck has not")
    for year in case.years:
        _fit_year(report, system, case, year)
    first = case.line + len(case.lines) - len(case.come)
    for line, (year, counts, _value) in enumerate(case.come, first):
        if len(counts) != width or not 1 <= year <= system.years:
            raise Unreadable(report.path, line, f"COME {year} does not fit the deck")


def fit(report, decks):
    """The System of each plan of a report, or None where it is refused; a report of another deck is Unreadable."""
    if report.malformed:
        what = f"MALFORMED: the planner could not read line {report.malformed[0]} of the deck"
        raise Unreadable(report.path, report.line, what)
    if len(report.plans) != len(decks):
        raise Unreadable(report.path, 1, f"{len(report.plans)} plans, and the deck asks for {len(decks)}")
    systems = []
    for plan, deck in zip(report.plans, decks):
        system = None if plan.refusal else System(deck)
        if system and len(plan.cases) != system.cases:
            raise Unreadable(report.path, plan.line, f"{len(plan.cases)} cases, and the deck asks for {system.cases}")
        for case in plan.cases:
            _fit_case(report, system, case)
        systems.append(system)
    return systems
