#!/usr/bin/env python3
"""net_income.py [PICTURE]: what is left of a salary to a parent with a child, by the rules of examples/country.

It prints some salaries; PICTURE is where it draws them all, which needs matplotlib.
"""
import sys

import fisca

FAMILY = {
    "period": "2017-05",
    "input": {
        "persons": {"Ada": {"age": 35}, "Cleo": {"age": 8}},
        "households": {"flat": {"head": "Ada", "children": ["Cleo"], "floor_area": {"2017-01": 70}}},
    },
    "axes": [[{"name": "salary", "count": 601, "min": 0, "max": 6000}]],
    "columns": ["disposable_income", "income_tax", "social_contribution", "parenting_allowance"],
}


def draw(path, salaries, columns):
    """Draws each column against the salary."""
    import matplotlib

    matplotlib.use("Agg")
    import matplotlib.pyplot as plot

    figure, axis = plot.subplots(figsize=(7, 4.2))
    axis.plot(salaries, salaries, ":", color="grey", label="the salary itself")
    for name, style in zip(FAMILY["columns"], ("-", "--", "-.", "-")):
        axis.plot(salaries, columns[name], style, label=name.replace("_", " "))
    axis.set(xlabel="salary of a month", ylabel="of a month", xlim=(0, 6000), ylim=(0, 6000))
    axis.set_title("What is left of a salary: a parent with a child of eight, May 2017", fontsize=10)
    axis.grid(alpha=0.3)
    axis.legend(fontsize=8)
    figure.tight_layout()
    figure.savefig(path, dpi=100)


def main():
    rows = list(fisca.Rules("examples/country").run(FAMILY))
    print("salary", *FAMILY["columns"])
    for row in rows[::100]:
        print(*(f"{float(it):.2f}" for it in (*row.axes, *row.columns)))
    if len(sys.argv) > 1:
        columns = {name: [float(row.columns[at]) for row in rows] for at, name in enumerate(FAMILY["columns"])}
        draw(sys.argv[1], [float(row.axes[0]) for row in rows], columns)


if __name__ == "__main__":
    main()
