#!/usr/bin/env python3
"""reform.py [--families N] [--write FILE] [PICTURE]: who gains by a reform of the housing benefit of examples/housing.

The reform pays a greater share of the rent, 0.65 of it and not 0.6, and takes more off for income, 0.25 and not 0.2.
Both rule sets work out the benefit of each family of a population drawn by lot. Printed is, for each fifth of the
families by their income, how many gain and lose, and how much on average. --write writes the population as JSON Lines;
PICTURE is where the fifths are drawn, which needs matplotlib.
"""
import argparse
import json
import pathlib
import random
import tempfile

import fisca

RULES = pathlib.Path("examples/housing")
CHANGES = {"rent_share": ("value: 0.6", "value: 0.65"), "income_reduction": ("value: 0.2", "value: 0.25")}


def families(count):
    """Families drawn by lot: one or two parents, up to three children, tenants."""
    lot = random.Random(2025)
    for at in range(count):
        parents = [f"p{at}.{it}" for it in range(1 + (lot.random() < 0.6))]
        children = [f"c{at}.{it}" for it in range(int(4 * lot.random() ** 1.5))]
        persons = {}
        for it in parents:
            persons[it] = {"age": 20 + int(45 * lot.random()), "salary": round(lot.lognormvariate(7.1, 0.6))}
        persons.update({it: {"age": int(18 * lot.random())} for it in children})
        rent = 250 + 90 * (len(parents) + len(children)) + round(300 * lot.random())
        home = {"parents": parents, "children": children, "rent": rent}
        yield {
            "period": "2025-03",
            "input": {"persons": persons, "households": {f"home {at}": home}},
            "columns": ["household_income", "housing_benefit"],
        }


def reformed(folder):
    """The rules with the changes, which are written as a reform into a folder."""
    for name, (before, after) in CHANGES.items():
        path = pathlib.Path("parameters", "housing_benefit", f"{name}.yaml")
        text = (RULES / path).read_text()
        assert text.count(before) == 1
        (folder / path).parent.mkdir(parents=True, exist_ok=True)
        (folder / path).write_text(text.replace(before, after))
    return fisca.Rules(RULES, reforms=[folder])


def changes(count):
    """The income of each family, and what its benefit is more by the reform, in the order of the incomes."""
    with tempfile.TemporaryDirectory() as room:
        after = reformed(pathlib.Path(room) / "reform").calc_lines(families(count))
        found = []
        for one, other in zip(fisca.Rules(RULES).calc_lines(families(count)), after):
            if one.fault or other.fault:
                raise one.fault or other.fault
            income, benefit = (it.value for it in one.amounts)
            found.append((income, other.amounts[1].value - benefit))
    return sorted(found)


def draw(path, fifths):
    """Draws for each fifth how many gain and lose, and the average."""
    import matplotlib

    matplotlib.use("Agg")
    import matplotlib.pyplot as plot

    figure, (left, right) = plot.subplots(1, 2, figsize=(8.5, 3.8))
    names = [f"{float(it[0][0]):.0f}-\n{float(it[-1][0]):.0f}" for it in fifths]
    gain = [100 * sum(more > 0 for _, more in it) / len(it) for it in fifths]
    lose = [100 * sum(more < 0 for _, more in it) / len(it) for it in fifths]
    left.bar(names, gain, color="tab:green", label="gain")
    left.bar(names, [-it for it in lose], color="tab:red", label="lose")
    left.axhline(0, color="black", linewidth=0.8)
    left.set(ylabel="families, in percent", ylim=(-100, 100))
    left.set_yticks(range(-100, 101, 50), [abs(it) for it in range(-100, 101, 50)])
    left.legend(fontsize=8)
    right.bar(names, [float(sum(more for _, more in it) / len(it)) for it in fifths])
    right.axhline(0, color="black", linewidth=0.8)
    right.set(ylabel="change of the benefit of a month,\non average")
    for axis in (left, right):
        axis.set_xlabel("income of the household, by fifths", fontsize=9)
        axis.tick_params(labelsize=8)
        axis.grid(axis="y", alpha=0.3)
    figure.suptitle("Who gains: 0.65 of the rent, and 0.25 taken off for income", fontsize=10)
    figure.tight_layout()
    figure.savefig(path, dpi=100)


def main():
    parser = argparse.ArgumentParser()
    parser.add_argument("--families", type=int, default=2000)
    parser.add_argument("--write")
    parser.add_argument("picture", nargs="?")
    words = parser.parse_args()
    if words.write:
        with open(words.write, "w", encoding="utf-8") as file:
            file.writelines(json.dumps(it) + "\n" for it in families(words.families))
        return
    found = changes(words.families)
    fifths = [found[len(found) * it // 5 : len(found) * (it + 1) // 5] for it in range(5)]
    print("fifth  income to  gain  lose  average")
    for at, it in enumerate(fifths, 1):
        gain, lose = sum(more > 0 for _, more in it), sum(more < 0 for _, more in it)
        average = float(sum(more for _, more in it) / len(it))
        print(f"{at:5}  {float(it[-1][0]):9.0f}  {gain:4}  {lose:4}  {average:7.2f}")
    print(f"all: {float(sum(more for _, more in found)):.2f} a month more is paid")
    if words.picture:
        draw(words.picture, fifths)


if __name__ == "__main__":
    main()
