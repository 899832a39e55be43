"""What is measured, and what was found.

measures.csv lists all measures: the bench that measures each, its unit, its aim, and `yes` if docs/EVIDENCE.md shows it. In a
name, `{crate}` stands for one word.

A line of results/BENCH.csv is a value: the date; the commit of the program, with `+` if files differ from it, or two commits, A
and B, as `B over A`; the machine, and what else ran on it, as far as that is known; the bench, the measure and its unit; the
value; and the round. That is the number of the round, or `of 9` if the value stands for nine rounds (their median; in a replay
the fastest, of memory the most), or nothing.
"""
import collections
import csv
import functools
import glob
import os
import re
import subprocess

import rounds

HERE = os.path.dirname(os.path.abspath(__file__))
HEADER = ("date", "commit", "machine", "bench", "measure", "unit", "value", "round")
FORMS = {
    "date": r"\d{4}-\d\d-\d\d",
    "commit": r"[0-9a-f]{7,40}\+?( over [0-9a-f]{7,40}\+?)?",
    "value": r"-?\d+(\.\d+)?",
    "round": r"(of )?[1-9]\d*|",
}
AIM = re.compile(r"at (least|most) (-?\d+(?:\.\d+)?)")
# Digits after the point; of other units none.
DIGITS = {"ratio": 2, "ms": 1, "percent": 1, "min": 1}


def laid_out(name, found, unit, aim):
    """A line of the table that a bench prints."""
    return f"{name:<70} {found:>12} {unit:<12} {aim}".rstrip()


class Unknown(ValueError):
    """A measure that isn't in measures.csv."""


class Measure(collections.namedtuple("Measure", "bench measure unit aim shown")):
    """A measure."""

    def text(self, value):
        """A value as it is shown."""
        return f"{value:,.{DIGITS.get(self.unit, 0)}f}"

    def plain(self, value):
        """A value as it is kept, with more digits."""
        if value == int(value):
            return str(int(value))
        return f"{value:.{DIGITS.get(self.unit, 0) + 2}f}"

    def is_missed(self, value):
        """Whether a value misses the aim."""
        found = AIM.fullmatch(self.aim)
        if not found:
            return False
        return value < float(found[2]) if found[1] == "least" else value > float(found[2])


@functools.lru_cache(maxsize=None)
def known():
    """The measures, in the order of their table."""
    with open(HERE + "/measures.csv", encoding="utf-8", newline="") as file:
        return [Measure(**row) for row in csv.DictReader(file)]


@functools.lru_cache(maxsize=None)
def find(bench, name):
    """The measure with this name, or whose name with a word for `{crate}` this is. Raises Unknown."""
    for one in known():
        pattern = re.sub(r"\\\{\w+\\\}", r"\\w+", re.escape(one.measure))
        if one.bench == bench and re.fullmatch(pattern, name):
            return one
    raise Unknown(f"{bench} has no measure `{name}`: bench/measures.csv lists all")


class Found:
    """The values that a bench found so far. It prints each, with its unit and its aim."""

    def __init__(self, bench):
        self.bench, self.rows, self.missed = bench, [], []

    @staticmethod
    def head():
        print(laid_out("measure", "found", "unit", "aim"), flush=True)

    def row(self, name, value, number=""):
        """Prints a value, and takes it into the results. `number` is its round."""
        self.take(name, value, number)
        self.show(name, value)

    def each(self, name, values):
        """Prints the median of a value for each round, and takes each into the results."""
        for number, value in enumerate(values, 1):
            self.take(name, value, number)
        self.show(name, rounds.median(values))

    def take(self, name, value, number=""):
        """Takes a value into the results without printing it."""
        find(self.bench, name)
        self.rows.append((name, value, number))

    def show(self, name, value):
        """Prints a value, and notes whether it misses its aim."""
        measure = find(self.bench, name)
        text = measure.text(value)
        print(laid_out(name, text, measure.unit, measure.aim), flush=True)
        if measure.is_missed(value):
            self.missed.append(f"{name}: {text}, and not {measure.aim}")

    def keep(self, *commit):
        """Appends the values to the results, with a commit other than that of the working tree. Returns whether that was done."""
        text = "".join(
            f"{name}\t{find(self.bench, name).plain(value)}\t{number}\n"
            for name, value, number in self.rows
        )
        done = subprocess.run(
            [rounds.TOP / "tools/results", self.bench, *commit], input=text, text=True, check=False
        )
        return done.returncode == 0


def results(folder):
    """The files of results in a folder: the path of each, and its rows with their numbers."""
    for path in sorted(glob.glob(folder + "/*.csv")):
        with open(path, encoding="utf-8", newline="") as file:
            yield path, list(enumerate(csv.reader(file), 1))


def faults(folder):
    """What is wrong with the files of results in a folder, a line each."""
    for path, lines in results(folder):
        if not lines or tuple(lines[0][1]) != HEADER:
            yield f"{path}:1: its columns aren't {','.join(HEADER)}"
            continue
        for number, fields in lines[1:]:
            row = dict(zip(HEADER, fields))
            wrong = [
                name for name, form in FORMS.items() if not re.fullmatch(form, row.get(name, "?"))
            ]
            if len(fields) != len(HEADER) or wrong:
                fault = ", ".join(wrong) or f"{len(fields)} columns"
                yield f"{path}:{number}: no line of results: {fault}"
                continue
            try:
                unit = find(row["bench"], row["measure"]).unit
            except Unknown as fault:
                yield f"{path}:{number}: {fault}"
                continue
            if row["unit"] != unit or row["bench"] + ".csv" != os.path.basename(path):
                yield f"{path}:{number}: the bench or the unit isn't that of the measure ({unit})"


def newest(lines):
    """The rows of the newest run that has a measure which is shown. The rows of a run have the same date and commit."""
    runs = {}
    for _, fields in lines[1:]:
        row = dict(zip(HEADER, fields))
        runs.setdefault((row["date"], row["commit"]), []).append(row)
    told = [
        (run[0], place, rows)
        for place, (run, rows) in enumerate(runs.items())
        if any(find(row["bench"], row["measure"]).shown for row in rows)
    ]
    return max(told, key=lambda one: one[:2])[2] if told else []


def figure(measure, rows):
    """The value of a measure in a run: the last one, or the median of its rounds, with its confidence interval."""
    each = [float(row["value"]) for row in rows if row["round"].isdigit()]
    if not each:
        return measure.text(float(rows[-1]["value"]))
    middle, least, most = map(measure.text, (rounds.median(each), *rounds.interval(each)))
    return f"{middle} ({least} to {most})"


def figures(folder):
    """The lines of a table: each measure that is shown, in the newest run of its bench."""
    yield "| Bench | Measure | Found | Unit | Aim | Program |"
    yield "|---|---|---|---|---|---|"
    runs = {
        os.path.basename(path)[: -len(".csv")]: newest(lines) for path, lines in results(folder)
    }
    for measure in known():
        rows = [row for row in runs.get(measure.bench, []) if row["measure"] == measure.measure]
        if measure.shown and rows:
            fields = (
                f"[{measure.bench}](../bench/results/{measure.bench}.csv)",
                measure.measure,
                figure(measure, rows),
                measure.unit,
                measure.aim or "none",
                f"{rows[0]['commit']}, {rows[0]['date']}",
            )
            yield f"| {' | '.join(fields)} |"
