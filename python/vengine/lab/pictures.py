"""The pictures of a report, each as the text of an SVG drawing, by matplotlib."""
import importlib
import io
from typing import Any, Dict, List, Optional, Sequence, Tuple

matplotlib: Any = importlib.import_module("matplotlib")
matplotlib.use("svg")
matplotlib.rcParams.update({"svg.hashsalt": "vengine", "svg.fonttype": "path", "font.size": 9, "axes.spines.top": False, "axes.spines.right": False})
pyplot: Any = importlib.import_module("matplotlib.pyplot")

# Colours that differ for all eyes (M. Okabe and K. Ito, Color Universal Design, 2008).
BLUE, ORANGE, GREEN, GREY, LIGHT, DARK = "#0072b2", "#e69f00", "#009e73", "#8c8c8c", "#f0e6d2", "#d8c3a0"


def svg_of(figure: Any) -> str:
    """The drawing as text, the same for the same figure."""
    room = io.StringIO()
    figure.savefig(room, format="svg", bbox_inches="tight", metadata={"Date": None, "Creator": None})
    pyplot.close(figure)
    return room.getvalue()[room.getvalue().index("<svg"):]


def bars(rows: Sequence[Tuple[str, int, str]], label: str) -> str:
    """Counts as bars, one below the other, each with its text, its count and its colour."""
    figure, axes = pyplot.subplots(figsize=(6.4, 0.4 + 0.32 * max(1, len(rows))))
    names = [row[0] for row in rows]
    drawn = axes.barh(range(len(rows)), [row[1] for row in rows], color=[row[2] for row in rows])
    axes.set_yticks(range(len(rows)), names)
    axes.invert_yaxis()
    axes.bar_label(drawn, padding=3)
    axes.set_xlabel(label)
    return svg_of(figure)


def histogram(lengths: Sequence[int], quartiles: Optional[Tuple[float, float, float]]) -> str:
    """The lengths of games, with lines at the quartiles."""
    figure, axes = pyplot.subplots(figsize=(6.4, 2.6))
    axes.hist(lengths, bins=min(40, max(5, len(set(lengths)))), color=BLUE)
    # Each label has a height of its own, as quartiles may be close to each other.
    for step, at in enumerate(quartiles or ()):
        axes.axvline(at, color=ORANGE, linewidth=1.5)
        axes.annotate(f"{at:g}", (at, 1), xycoords=("data", "axes fraction"), textcoords="offset points", xytext=(0, 2 + 10 * step), ha="center", color="#7a5200")
    axes.set_xlabel("plies")
    axes.set_ylabel("games")
    return svg_of(figure)


def bands(rows: Sequence[Tuple[int, float, float, float]], label: str, is_share: bool = False) -> str:
    """A value by ply: a line, and around it what its band says."""
    figure, axes = pyplot.subplots(figsize=(6.4, 2.4))
    plies, scale = [row[0] for row in rows], 100 if is_share else 1
    axes.fill_between(plies, [scale * row[1] for row in rows], [scale * row[3] for row in rows], color=BLUE, alpha=0.25, linewidth=0)
    axes.plot(plies, [scale * row[2] for row in rows], color=BLUE)
    axes.set_xlabel("ply")
    axes.set_ylabel(label)
    axes.set_ylim(bottom=0)
    return svg_of(figure)


def intervals(rows: Sequence[Tuple[str, Optional[float], Optional[float], Optional[float]]], label: str, middle: Optional[float] = None) -> str:
    """Values with their intervals, one below the other; a row without a value is left empty."""
    figure, axes = pyplot.subplots(figsize=(6.4, 0.5 + 0.26 * max(1, len(rows))))
    for at, (_, value, low, high) in enumerate(rows):
        if value is not None and low is not None and high is not None:
            axes.plot([low, high], [at, at], color=GREY, linewidth=2)
            axes.plot([value], [at], "o", color=BLUE)
    axes.set_yticks(range(len(rows)), [row[0] for row in rows])
    axes.set_ylim(len(rows) - 0.5, -0.5)
    if middle is not None:
        axes.axvline(middle, color=ORANGE, linewidth=1)
    axes.set_xlabel(label)
    return svg_of(figure)


def moves(word: str, square: str, quiet: Sequence[str], take: Sequence[str], files: int = 8, ranks: int = 8) -> str:
    """Where a piece goes from a square: a dot where it moves, a cross where it takes."""
    figure, axes = pyplot.subplots(figsize=(1.9, 1.9))
    for file in range(files):
        for rank in range(ranks):
            axes.add_patch(pyplot.Rectangle((file, rank), 1, 1, color=DARK if (file + rank) % 2 == 0 else LIGHT, linewidth=0))
    for one in quiet:
        axes.plot(*middle_of(one), "o", color=BLUE, markersize=5)
    for one in take:
        axes.plot(*middle_of(one), "x", color="#b00020", markersize=7, markeredgewidth=1.6)
    axes.plot(*middle_of(square), "s", color="black", markersize=7)
    axes.set_xlim(0, files)
    axes.set_ylim(0, ranks)
    axes.set_aspect("equal")
    axes.axis("off")
    axes.set_title(word, fontsize=8)
    return svg_of(figure)


def middle_of(square: str) -> Tuple[float, float]:
    """The middle of a square of a board that is drawn from its first file and rank."""
    return ord(square[0]) - ord("a") + 0.5, int(square[1:]) - 0.5


def pictures_of(numbers: Dict[str, Any], names: Dict[str, str]) -> Dict[str, str]:
    """The pictures of the numbers that come from games. `names` has the text of each end."""
    colours = {"won white": GREEN, "won black": BLUE}
    ends = [(names.get(end, end), count, colours.get(" ".join(end.split(" ")[:2]), GREY)) for end, count in numbers["ends"]]
    found = {"ends": bars(ends, "games"), "lengths": histogram(numbers["lengths"], numbers["length"]), "branching": bands(numbers["branching by ply"], "legal moves"),
             "captures": bands(numbers["captures by ply"], "% that take", True), "checks": bands(numbers["checks by ply"], "% that check", True)}
    if any(row[3] for row in numbers["hands by ply"]):
        found["hands"] = bands(numbers["hands by ply"], "men in hand")
    rows = numbers["openings"]
    shown: List[Dict[str, Any]] = rows if len(rows) <= 24 else rows[:12] + rows[-12:]
    found["openings"] = intervals([(f"{row['move']} ({row['total']})", row["value"], row["low"], row["high"]) for row in shown], "score", 0.5)
    return found
