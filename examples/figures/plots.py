#!/usr/bin/env python3
"""Draws the plots (SVG) from the tables, by matplotlib (Debian's python3-matplotlib). Usage: plots.py [FOLDER]"""

import csv
import pathlib
import sys

import matplotlib

matplotlib.use("svg")
matplotlib.rcParams.update({"svg.hashsalt": "figures", "svg.fonttype": "none", "font.family": "sans-serif", "font.size": 11})
from matplotlib import pyplot  # the back end comes first

# Each curve in a colour, a mark and a dash of its own, so that it is known in grey too.
STYLES = {
    "run": {"color": "#0072b2", "marker": "o", "linestyle": "-", "label": "sa run"},
    "vp": {"color": "#d55e00", "marker": "s", "linestyle": "--", "label": "sa vp"},
    "run, dear forks": {"color": "#009e73", "marker": "^", "linestyle": ":", "label": "sa run, forks 28 times as dear"},
}
BARS = (("run", "2", "sa run, two copies on 6", "#0072b2", ""), ("vp", "2", "sa vp, two copies on 6", "#e69f00", "///"), ("run", "1", "sa run, one copy on 3", "#cccccc", ""))
# Speed-ups of two copies on six processors, as the paper's table 5 has them: activations, and threads on virtual processors.
PAPER = (2.45, 1.26)


class Plots:
    """The tables of a folder, and the plots made of them."""

    def __init__(self, folder):
        self.folder = folder

    def rows(self, name, **wanted):
        """The rows of a table in which these fields have these values."""
        with open(self.folder / f"{name}.csv", encoding="utf-8") as file:
            return [it for it in csv.DictReader(file) if all(it[key] == value for key, value in wanted.items())]

    def save(self, figure, name):
        figure.tight_layout()
        figure.savefig(self.folder / f"{name}.svg", metadata={"Date": None})
        print(f"{name}.svg")

    def curve(self, axes, rows, over, style):
        """One curve, with the range over the seeds at each point."""
        x = [float(it[over]) for it in rows]
        mean, low, high = ([float(it[key]) for it in rows] for key in ("mean", "low", "high"))
        axes.errorbar(x, mean, [[m - l for m, l in zip(mean, low)], [h - m for m, h in zip(mean, high)]], capsize=3, markersize=5, **style)

    def figure1(self):
        figure, all_axes = pyplot.subplots(1, 3, figsize=(9.6, 3.6), sharey=True)
        titles = {"tasks": "independent tasks", "mutex": "one mutex, often held", "ring": "threads that wait\nfor their neighbours"}
        for axes, (name, title) in zip(all_axes, titles.items()):
            axes.plot([1, 6], [1, 6], color="#999999", linewidth=0.8)
            for curve, style in STYLES.items():
                rows = self.rows("figure1", application=name, curve=curve)
                if rows:
                    self.curve(axes, rows, "processors", style)
            axes.set(title=title, xlabel="processors", xticks=range(1, 7), ylim=(0, 6.2))
        all_axes[0].set_ylabel("speed-up over one thread")
        all_axes[0].legend(fontsize=8, loc="upper left")
        self.save(figure, "figure1")

    def figure2(self):
        figure, axes = pyplot.subplots(figsize=(7.2, 4.4))
        for curve, style in STYLES.items():
            self.curve(axes, self.rows("figure2", curve=curve), "memory", style)
        axes.set(xlabel="available memory, per cent", ylabel="rounds", ylim=(0, None))
        axes.invert_xaxis()
        axes.yaxis.set_major_formatter("{x:,.0f}")
        axes.legend()
        self.save(figure, "figure2")

    def figure3(self):
        figure, all_axes = pyplot.subplots(1, 2, figsize=(9.6, 3.6), sharey=True)
        panels = (("threads", "threads of a step, on 6 processors"), ("io", "events that a read takes"))
        for axes, (varied, label) in zip(all_axes, panels):
            axes.axhline(1, color="#999999", linewidth=0.8)
            self.curve(axes, self.rows("figure3", varied=varied), "value", {**STYLES["vp"], "label": None})
            axes.set(xlabel=label, ylim=(0, None))
        all_axes[0].set_ylabel("time of sa vp : time of sa run")
        self.save(figure, "figure3")

    def table5(self):
        figure, axes = pyplot.subplots(figsize=(7.2, 4.4))
        names = ["tasks", "mutex", "ring"]
        for at, (command, copies, label, color, hatch) in enumerate(BARS):
            rows = [self.rows("table5", application=name, command=command, copies=copies)[0] for name in names]
            mean = [float(it["mean"]) for it in rows]
            range_of = [[m - float(it["low"]) for m, it in zip(mean, rows)], [float(it["high"]) - m for m, it in zip(mean, rows)]]
            bars = axes.bar([k + 0.27 * at for k in range(3)], mean, 0.25, yerr=range_of, capsize=3, label=label, color=color, hatch=hatch, edgecolor="#444444")
            axes.bar_label(bars, fmt="%.2f", padding=3, fontsize=9)
        for at, value in enumerate(PAPER):
            bars = axes.bar([3 + 0.27 * at], [value], 0.25, color=BARS[at][3], hatch=BARS[at][4], edgecolor="#444444")
            axes.bar_label(bars, fmt="%.2f", padding=3, fontsize=9)
        axes.axhline(3, color="#999999", linewidth=0.8, linestyle=":")
        axes.set(ylabel="speed-up of each copy", xticks=[k + 0.27 for k in range(4)], ylim=(0, 4))
        axes.set_xticklabels([*names, "the paper"])
        axes.legend(fontsize=9, ncol=3, loc="upper center")
        self.save(figure, "table5")


def main():
    plots = Plots(pathlib.Path(sys.argv[1] if len(sys.argv) > 1 else pathlib.Path(__file__).parent))
    for draw in (plots.figure1, plots.figure2, plots.figure3, plots.table5):
        draw()


if __name__ == "__main__":
    main()
