#!/usr/bin/env python3
"""marginal_rates.py [PICTURE]: what is kept back of ten more of salary, for the family of net_income.py.

It prints the stretches of salary on which the rate is the same, exactly; PICTURE is where it draws the rate, which
needs matplotlib.
"""
import itertools
import sys

import fisca
from net_income import FAMILY


def rates():
    """The salary before each step, the salary behind it, and the share of the step that is not left."""
    rows = fisca.Rules("examples/country").run({**FAMILY, "columns": "disposable_income"})
    points = [(row.axes[0], row.columns[0]) for row in rows]
    for (salary, net), (more, further) in zip(points, points[1:]):
        yield salary, more, 1 - (further - net) / (more - salary)


def draw(path, found):
    """Draws the rate against the salary. A step at which more is lost than earned goes out of the picture."""
    import matplotlib

    matplotlib.use("Agg")
    import matplotlib.pyplot as plot

    figure, axis = plot.subplots(figsize=(7, 4.2))
    axis.step([float(more) for _, more, _ in found], [100 * float(rate) for *_, rate in found], where="pre")
    for salary, more, rate in found:
        if rate > 1:
            lost = float(rate * (more - salary))
            axis.annotate(f"above {float(salary):g}:\nten more of salary\ntake {lost:g} off", (float(more), 95),
                          xytext=(12, 0), textcoords="offset points", va="top", fontsize=8)
    axis.set(xlabel="salary of a month", ylabel="kept back of ten more, in percent", xlim=(0, 6000), ylim=(0, 100))
    axis.set_title("Marginal rates: a parent with a child of eight, May 2017", fontsize=10)
    axis.grid(alpha=0.3)
    figure.tight_layout()
    figure.savefig(path, dpi=100)


def main():
    found = list(rates())
    for rate, steps in itertools.groupby(found, key=lambda it: it[2]):
        steps = list(steps)
        print(f"from {steps[0][0]} to {steps[-1][1]}: {rate} = {100 * float(rate):.1f} %")
    if len(sys.argv) > 1:
        draw(sys.argv[1], found)


if __name__ == "__main__":
    main()
