"""The figures of a measurement: for each database and row, each figure of each turn."""
import json
import re
import statistics


class Figures:
    """`kept[where][row][figure]` is the list of the values of the turns."""

    def __init__(self, kept):
        self.kept = kept

    def add(self, where, row, figures):
        row = self.kept.setdefault(where, {}).setdefault(row, {})
        for name, value in figures.items():
            row.setdefault(name, []).append(float(f"{value:.6g}"))


def middle(values):
    return statistics.median(values)


def is_less(some, others):
    """Whether some values are less than others: their intervals do not touch."""
    return bool(some) and bool(others) and max(some) < min(others)


def number(value):
    """Returns the text of a number, with three digits at least where it has them."""
    return f"{value:,.0f}" if abs(value) >= 100 else f"{value:.1f}" if abs(value) >= 10 else f"{value:.2f}"


def spread(values):
    """Returns the text of a figure: the median, with the least and the greatest value beside it."""
    if not values:
        return ""
    texts = [number(value) for value in (middle(values), min(values), max(values))]
    return texts[0] if texts[1] == texts[2] else f"{texts[0]} ({texts[1]} to {texts[2]})"


def stored(found, name):
    """Writes a measurement into a file, with a line for each figure."""
    text = json.dumps(found, indent=1, ensure_ascii=False)
    text = re.sub(r"\[\s+([^][{}]*?)\s+\]", lambda values: f"[{re.sub(chr(10) + ' *', ' ', values[1])}]", text)
    with open(name, "w", encoding="utf-8") as file:
        file.write(text + "\n")
