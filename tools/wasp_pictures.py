"""The pictures of a report: generation, capacity, cost terms and loss-of-load probability of each plan and case."""

from svg_chart import MOST_FILLS, Chart, Fill, Line
from wasp_system import Capacity
from wasp_tables import fixed, planned, united
from wasp_text import TERM_NAMES

GREATEST_SHARE = 3
SCALES = ((1, ""), (1000, "thousand "), (1000000, "million "), (1000000000, "thousand million "))
ENERGIES = ((1, "MWh"), (1000, "GWh"), (1000000, "TWh"))


def grouped(number):
    """A whole number with commas between its thousands."""
    return f"{number:,}"


def scaled(scales, step):
    """The greatest scale that a step is a multiple of, so that ticks are whole."""
    return [scale for scale in scales if step % scale[0] == 0][-1]


def scaled_chart(title, scales, unit, years, low, high):
    """A chart whose ticks are whole numbers of a unit that is large enough."""
    chart = Chart(title, "", years, low, high, None)
    size, name = scaled(scales, chart.step)
    chart.unit = unit.format(name)
    chart.label = lambda tick, _step: grouped(tick // size)
    return chart


def percent(parts, _step=0):
    """Parts of 1,000,000,000 in percent, without zeros at the end."""
    text = fixed(parts, 10 ** 7, 7)
    return text.rstrip("0").rstrip(".")


def stack(chart, series):
    """Adds parts of bars one upon the other; each is a name, a fill and the values of the years."""
    bottoms = [0] * len(chart.years)
    for name, fill, values in series:
        chart.bars(name, fill, bottoms, values)
        bottoms = [bottom + value for bottom, value in zip(bottoms, values)]


def years_of(case):
    """The numbers of the years."""
    return [year.number for year in case.years]


def drawn_plants(report, systems):
    """The plants that are drawn one by one; past the twentieth the existing ones of least energy are put together."""
    energy = {}
    for _plan, _case, year, _system in planned(report, systems):
        for mark, name, mwh in year.generation:
            energy[mark, name] = energy.get((mark, name), 0) + mwh
    plants = united([energy])
    if len(plants) > MOST_FILLS:
        by_need = sorted(plants, key=lambda plant: (plant[0][0] == "P", -energy[plant], plants.index(plant)))
        plants = united([by_need[:MOST_FILLS - 1]])
    return plants


def generation_picture(title, case, plants):
    """Stacked generation by plant and year."""
    by_year = [{line[:2]: line[2] for line in year.generation} for year in case.years]
    own = {plant for energy in by_year for plant in energy}
    series = []
    rest = [sum(mwh for plant, mwh in energy.items() if plant not in plants) for energy in by_year]
    if any(rest):
        series.append(("other plants", Fill(MOST_FILLS - 1), rest))
    for at, plant in enumerate(plants):
        if plant in own:
            series.append((" ".join(plant), Fill(at), [energy.get(plant, 0) for energy in by_year]))
    high = max(sum(energy.values()) for energy in by_year)
    chart = scaled_chart(f"{title}: generation by plant", ENERGIES, "{} a year", years_of(case), 0, high)
    stack(chart, series)
    return chart.svg()


def capacity_picture(title, case, system):
    """Capacity in the critical period beside its peak and the limits of the margins."""
    years = [Capacity(system, case.number, year) for year in case.years]
    low = [-(-c.peak * c.low // 10000) for c in years]
    high = [c.peak * c.high // 10000 for c in years]
    greatest = max(max(c.total for c in years), max(c.peak for c in years), 1)
    shows_high = max(high) <= GREATEST_SHARE * greatest
    top = max([greatest] + low + (high if shows_high else []))
    chart = Chart(f"{title}: capacity and peak in the critical period", "MW", years_of(case), 0, top,
                  lambda tick, _step: grouped(tick))
    stack(chart, [("existing thermal plants", Fill(2), [c.existing for c in years]),
                  ("thermal candidates", Fill(1), [c.candidates for c in years]),
                  ("hydro", Fill(5), [c.hydro for c in years])])
    chart.bounds("least capacity by the margin", Line("#000000", "2 3"), low)
    if shows_high:
        chart.bounds("greatest capacity by the margin", Line("#707070", "7 3"), high)
    else:
        chart.note("(the greatest capacity lies above)")
    chart.line("peak", Line("#000000", "", "circle"), [c.peak for c in years])
    return chart.svg()


def cost_picture(title, case):
    """The terms of each year's cost; salvage is taken off and stands below 0."""
    terms = list(zip(*(year.terms for year in case.years)))
    costs = [year.cost() for year in case.years]
    positive = [0, 2, 3, 4, 5]
    high = max(max(sum(year.terms) - year.terms[1] for year in case.years), max(costs), 0)
    low = min(-max(terms[1]), min(costs), 0)
    chart = scaled_chart(f"{title}: terms of the cost, as present worth", SCALES, "{}dollars", years_of(case), low, high)
    fills = (2, 3, 1, 4, 9, 0)
    chart.bars("salvage (taken off)", Fill(fills[1]), [0] * len(costs), [-value for value in terms[1]])
    stack(chart, [(TERM_NAMES[at], Fill(fills[at]), terms[at]) for at in positive])
    chart.line("cost of the year", Line("#000000", "", "circle"), costs)
    return chart.svg()


def risk_picture(title, case, system):
    """The loss-of-load probability of the worst period and of the year, beside their limits."""
    limits = [system.limits("LOLP", case.number, year.number) for year in case.years]
    chance = [[year.risk[at] for year in case.years] for at in (0, 1)]
    greatest = max(chance[0] + chance[1])
    shown = [max(limit[at] for limit in limits) <= GREATEST_SHARE * max(greatest, 1) for at in (0, 1)]
    top = max([greatest, 1] + [limit[at] for limit in limits for at in (0, 1) if shown[at]])
    chart = Chart(f"{title}: loss-of-load probability", "percent of the time", years_of(case), 0, top, percent)
    styles = (Line("#b04a20", "7 3"), Line("#1f2a5c", "2 3"))
    names = ("worst period", "year")
    for at in (0, 1):
        if shown[at]:
            chart.bounds(f"limit, {names[at]}", styles[at], [limit[at] for limit in limits])
        else:
            least = min(limit[at] for limit in limits)
            chart.note(f"(limit, {names[at]}: {percent(least)} percent or more)")
    chart.line("worst period", Line("#b04a20", "", "circle"), chance[0])
    chart.line("average of the year", Line("#1f2a5c", "", "square"), chance[1])
    return chart.svg()


def svg_files(report, systems):
    """The text of each SVG file by its name, for each plan and case that has a plan."""
    plants = drawn_plants(report, systems)
    files = {}
    for plan, system in zip(report.plans, systems):
        for case in plan.cases:
            if not case.years:
                continue
            front = f"plan{plan.number}_case{case.number}"
            title = f"Plan {plan.number}, case {case.number}"
            files[f"{front}_generation.svg"] = generation_picture(title, case, plants)
            files[f"{front}_capacity.svg"] = capacity_picture(title, case, system)
            files[f"{front}_costs.svg"] = cost_picture(title, case)
            files[f"{front}_lolp.svg"] = risk_picture(title, case, system)
    return files
