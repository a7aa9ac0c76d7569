"""Figures: how a bench says what it measured, and the table that bench/all makes of it.

Beside its words for people a bench prints each figure as one line, which begins with MARK. A cell has no bar.
"""
from typing import Iterable, Iterator, NamedTuple, Sequence, Tuple

MARK = "figure: "


class Figure(NamedTuple):
    """A row of the table. Amounts stand with their units."""

    what: str  # what was measured
    ours: str  # of factoplan
    peer: str = ""  # of a peer, behind its name; or which package has it
    holds: str = ""  # what the peer's figure holds, as whether it loads the bytes
    ratio: str = ""  # ours as a part of the peer's


def tell(figure: Figure) -> None:
    """Prints a figure as a line."""
    if any("|" in cell or "\n" in cell for cell in figure):
        raise ValueError("a cell has a bar or a newline: %r" % (figure,))
    print(MARK + " | ".join(figure), flush=True)


def figures_in(said: str) -> Iterator[Figure]:
    """The figures among the lines that a bench printed."""
    for line in said.splitlines():
        if line.startswith(MARK):
            yield Figure(*(cell.strip() for cell in line[len(MARK) :].split("|")))


def table(rows: Iterable[Tuple[Figure, str]]) -> str:
    """Figures with the commands that told them, as a table in Markdown."""
    lines = ["| what | factoplan | peer | ratio | command |", "|---|---|---|---:|---|"]
    for figure, command in rows:
        peer = figure.peer + (" (%s)" % figure.holds if figure.holds else "")
        lines.append("| %s | %s | %s | %s | `%s` |" % (figure.what, figure.ours, peer, figure.ratio, command))
    return "\n".join(lines)


def amount(*seconds: float) -> str:
    """Some times from the least to the most, in the unit that suits the most."""
    most = max(seconds)
    unit, scale = ("s", 1) if most >= 1 else ("ms", 1e3) if most >= 1e-4 else ("microseconds", 1e6)
    return "%s %s" % (_range([spent * scale for spent in seconds]), unit)


def ratio(*parts: float) -> str:
    """Some ratios from the least to the most; small ones as parts of 1."""
    if 0 < max(parts) < 0.01:
        return "1/{:,.0f}".format(1 / max(parts))
    return _range(parts)


def memory(megabytes: float) -> str:
    """The most memory of a run."""
    return "%.0f MB" % megabytes


def beside(
    what: str, ours: Sequence[float], name: str, theirs: Sequence[float], holds: str, more: Tuple[str, str] = ("", "")
) -> Figure:
    """Seconds beside those of a peer, which took the same in the same order; `more` stands behind each of the two."""
    ratios = [our / max(their, 1e-9) for our, their in zip(ours, theirs)]
    return Figure(what, amount(*ours) + more[0], "%s %s%s" % (name, amount(*theirs), more[1]), holds, ratio(*ratios))


def without_peer(what: str, ours: Sequence[float], package: str, more: str = "") -> Figure:
    """Seconds beside a peer that isn't there."""
    return Figure(what, amount(*ours) + more, "not measured: Debian's %s is missing" % package)


def _range(numbers: Sequence[float]) -> str:
    least, most = _digits(min(numbers)), _digits(max(numbers))
    return least if least == most else "%s to %s" % (least, most)


def _digits(number: float) -> str:
    """Three digits, or all of a whole number that has more."""
    return "%.0f" % number if number >= 100 else "%.1f" % number if number >= 10 else "%.2f" % number
