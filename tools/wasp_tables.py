"""The tables of a report: one CSV file a kind, each with a header line that names units."""

import csv
import io

from wasp_system import HOURS, Capacity


def fixed(numerator, denominator, places):
    """A quotient as a decimal with so many places, halves rounded away from zero."""
    scaled = abs(numerator) * 10 ** places
    rounded = (2 * scaled + denominator) // (2 * denominator)
    whole, part = divmod(rounded, 10 ** places)
    sign = "-" if numerator < 0 and rounded else ""
    return f"{sign}{whole}.{part:0{places}d}" if places else f"{sign}{whole}"


def percent_of_parts(parts):
    """Parts of 1,000,000,000 in percent, exactly."""
    return fixed(parts, 10 ** 7, 7)


def united(lists):
    """The items of all lists, each once: by letter (P, T, H), number, and name."""
    items = {item for each in lists for item in each}
    return sorted(items, key=lambda item: ("PTH".index(item[0][0]), int(item[0][1:]), item[1]))


def planned(report, systems):
    """Each plan, case and year of the report that has a plan, with its system."""
    for plan, system in zip(report.plans, systems):
        for case in plan.cases:
            for year in case.years:
                yield plan, case, year, system


def all_candidates(systems):
    """The candidates of all plans."""
    return united(system.candidates() for system in systems if system)


def by_candidate(system, values, candidates):
    """The value of each candidate, empty where the plan's deck has it not."""
    own = dict(zip(system.candidates(), values))
    return [own.get(candidate, "") for candidate in candidates]


def outcome_table(report, _systems):
    """A row for each case of each plan, and one for each refused plan."""
    header = ["plan", "case", "outcome", "total (dollars)", "first year without a plan", "refusal number", "refusal",
              "a", "b", "c", "accepted configurations"]
    rows = []
    for plan in report.plans:
        if plan.refusal:
            rows.append([plan.number, "", "refused", "", "", *plan.refusal, ""])
        for case in plan.cases:
            if case.infeasible is None:
                outcome = ["planned", case.total, ""]
            else:
                outcome = ["infeasible", "", case.infeasible]
            rows.append([plan.number, case.number, *outcome, "", "", "", "", "", len(case.come)])
    return header, rows


def plan_table(report, systems):
    """The chosen plan by year: for each candidate the count, what is added, the edge mark and the tunnel."""
    candidates = all_candidates(systems)
    kinds = ["count", "added", "edge", "least of tunnel", "greatest of tunnel"]
    header = ["plan", "case", "year"] + [f"{mark} {name} {kind}" for kind in kinds for mark, name in candidates]
    rows = []
    for plan, case, year, system in planned(report, systems):
        before = case.years[year.number - 2].counts if year.number > 1 else [0] * len(year.counts)
        pairs = system.limits("TUNNEL", case.number, year.number, size=2 * len(year.counts))
        least, width = pairs[0::2], pairs[1::2]
        values = [year.counts, [now - then for now, then in zip(year.counts, before)], year.edge,
                  least, [low + more for low, more in zip(least, width)]]
        cells = [cell for each in values for cell in by_candidate(system, each, candidates)]
        rows.append([plan.number, case.number, year.number] + cells)
    return header, rows


def capacity_table(report, systems):
    """Capacity and reserve beside the peak, in the critical period of each year."""
    header = ["plan", "case", "year", "peak of the year (MW)", "critical period", "peak in it (MW)",
              "existing thermal (MW)", "thermal candidates (MW)", "hydro (MW)", "capacity (MW)", "reserve (MW)",
              "reserve (percent of peak)", "least reserve (percent of peak)", "greatest reserve (percent of peak)"]
    rows = []
    for plan, case, year, system in planned(report, systems):
        c = Capacity(system, case.number, year)
        rows.append([plan.number, case.number, year.number, c.greatest_peak, c.period, c.peak, c.existing, c.candidates,
                     c.hydro, c.total, c.total - c.peak, fixed(100 * (c.total - c.peak), c.peak, 2),
                     fixed(c.low - 10000, 100, 2), fixed(c.high - 10000, 100, 2)])
    return header, rows


def cost_table(report, systems):
    """The terms of each year's cost, and what the year costs."""
    header = ["plan", "case", "year", "investment (dollars)", "salvage (dollars)", "fuel stock (dollars)",
              "fuel (dollars)", "operation and maintenance (dollars)", "energy not served (dollars)",
              "cost of the year (dollars)"]
    rows = [[plan.number, case.number, year.number, *year.terms, year.cost()]
            for plan, case, year, _system in planned(report, systems)]
    return header, rows


def risk_table(report, systems):
    """The loss-of-load probability beside its limits, and the energy not served."""
    short = max((len(year.short) for _p, _c, year, _s in planned(report, systems)), default=0)
    header = ["plan", "case", "year", "LOLP of the worst period (percent)", "its limit (percent)",
              "LOLP of the year (percent)", "limit of the year (percent)", "loss of load (hours a year)",
              "energy not served (MWh)"]
    header += [f"energy not served in condition {each} (MWh)" for each in range(1, short + 1)]
    rows = []
    for plan, case, year, system in planned(report, systems):
        worst, average, unserved = year.risk
        worst_limit, average_limit = system.limits("LOLP", case.number, year.number)
        cells = [percent_of_parts(parts) for parts in (worst, worst_limit, average, average_limit)]
        conditions = list(year.short) + [""] * (short - len(year.short))
        rows.append([plan.number, case.number, year.number, *cells, fixed(average * HOURS, 10 ** 9, 4), unserved]
                    + conditions)
    return header, rows


def generation_table(report, systems):
    """The generation of each plant by year; the cell of a plant without a unit is empty."""
    plants = united([line[:2] for line in year.generation] for _p, _c, year, _s in planned(report, systems))
    header = ["plan", "case", "year"] + [f"{mark} {name} (MWh)" for mark, name in plants] + ["all plants (MWh)"]
    rows = []
    for plan, case, year, _system in planned(report, systems):
        energy = {line[:2]: line[2] for line in year.generation}
        cells = [energy.get(plant, "") for plant in plants]
        rows.append([plan.number, case.number, year.number, *cells, sum(energy.values())])
    return header, rows


def come_table(report, systems):
    """The cost-to-come of each accepted configuration, also where a case has no plan."""
    candidates = all_candidates(systems)
    header = ["plan", "case", "year"] + [f"{mark} {name} count" for mark, name in candidates]
    header += ["cost-to-come (dollars)", "chosen"]
    rows = []
    for plan, system in zip(report.plans, systems):
        for case in plan.cases:
            chosen = {(year.number, year.counts) for year in case.years}
            for year, counts, value in case.come:
                mark = "yes" if (year, counts) in chosen else ""
                rows.append([plan.number, case.number, year, *by_candidate(system, counts, candidates),
                             "NONE" if value is None else value, mark])
    return header, rows


TABLES = {
    "outcomes.csv": outcome_table,
    "plan.csv": plan_table,
    "capacity.csv": capacity_table,
    "costs.csv": cost_table,
    "risk.csv": risk_table,
    "generation.csv": generation_table,
    "cost_to_come.csv": come_table,
}


def csv_text(header, rows):
    """A table as the text of a CSV file."""
    sink = io.StringIO()
    writer = csv.writer(sink, lineterminator="\n")
    writer.writerow(header)
    writer.writerows(rows)
    return sink.getvalue()


def csv_files(report, systems):
    """The text of each CSV file by its name."""
    return {name: csv_text(*table(report, systems)) for name, table in TABLES.items()}
