"""The report as one page of HTML: its pictures are inside, and nothing comes from elsewhere."""
import html
from typing import Any, Dict, Iterable, List, Optional, Sequence

from vengine.lab import handicap
from vengine.lab.numbers import DEFINITIONS, percent

STYLE = """
body { font: 16px/1.5 system-ui, sans-serif; color: #1a1a1a; background: #fff; max-width: 60rem; margin: 2rem auto; padding: 0 1rem; }
h1, h2 { line-height: 1.2; } h2 { margin-top: 2.5rem; border-bottom: 1px solid #ccc; }
table { border-collapse: collapse; margin: 1rem 0; } th, td { text-align: left; padding: .2rem .8rem .2rem 0; border-bottom: 1px solid #e4e4e4; vertical-align: top; }
pre { background: #f5f5f5; padding: .8rem; overflow-x: auto; } svg { max-width: 100%; height: auto; } .kinds { display: flex; flex-wrap: wrap; gap: 1rem; }
.definition { color: #555; font-size: .87rem; margin: .2rem 0 1rem; } .verdict { font-weight: 600; } .columns { display: grid; grid-template-columns: 1fr 1fr; gap: 2rem; }
@media (max-width: 50rem) { .columns { grid-template-columns: 1fr; } }
"""
SIDES = {"white": "White", "black": "Black"}


def text(value: Any) -> str:
    """A text of the page."""
    return html.escape(str(value))


def table(heads: Sequence[str], rows: Iterable[Sequence[Any]]) -> str:
    """A table of texts."""
    head = "".join(f"<th>{text(one)}</th>" for one in heads)
    return f"<table><tr>{head}</tr>" + "".join("<tr>" + "".join(f"<td>{text(one)}</td>" for one in row) + "</tr>" for row in rows) + "</table>"


def definition(name: str) -> str:
    """What a number means, below it."""
    return f'<p class="definition">{text(name)}: {text(DEFINITIONS[name])}.</p>'


def number(value: Optional[float], digits: int = 1) -> str:
    """A number as a table has it."""
    return "-" if value is None else f"{value:.{digits}f}"


def share(value: Dict[str, Any]) -> str:
    """A share with its interval."""
    return "-" if value["value"] is None else f"{percent(value['value'])} ({percent(value['low'])} to {percent(value['high'])})"


def end_name(end: str) -> str:
    """How a game ended, in words."""
    words = end.split(" ")
    return f"{SIDES[words[1]]} won by {words[2]}" if words[0] == "won" else f"drawn by {words[1]}" if words[0] == "drawn" else end


def summary(numbers: Dict[str, Any]) -> str:
    """The numbers that a reader looks for first."""
    length = numbers["length"]
    rows = [
        (f"score of the first player ({SIDES[numbers['first']]})", share(numbers["score"])), ("won, lost, drawn, unfinished", f"{numbers['won']}, {numbers['lost']}, "
         f"{round((numbers['drawn']['value'] or 0) * numbers['games'])}, {round((numbers['unfinished']['value'] or 0) * numbers['games'])}"),
        ("drawn", share(numbers["drawn"])), ("unfinished", share(numbers["unfinished"])),
        ("length in plies: quartile, median, quartile", "-" if length is None else ", ".join(f"{one:g}" for one in length)),
        ("branching", number(numbers["branching"])), ("captures", share(numbers["captures"])), ("checks", share(numbers["checks"])),
        ("decisiveness", share(numbers["decisiveness"])), ("lead changes a game", number(numbers["lead changes"], 2)),
        ("deciding change", percent(numbers["deciding change"])),
    ]
    return table(("number", f"of {numbers['games']} games"), rows)


def rules_part(report: Dict[str, Any], pictures: Dict[str, str]) -> List[str]:
    """The rules, the pieces, the start and what lint warns of."""
    kinds = "".join(f"<figure>{pictures['kind ' + kind['letter']]}<figcaption>{text(kind['letter'])}: {text(kind['name'])}</figcaption></figure>"
                    for kind in report["kinds"] if "kind " + kind["letter"] in pictures)
    counts = [("legal moves at the start", report["start moves"])] + [(f"perft {plies}", count) for plies, count in enumerate(report["perft"], 1)]
    warnings = "".join(f"<li>{text(one)}</li>" for one in report["lint"]) or "<li>nothing</li>"
    return ["<h2>Rules</h2>", f"<pre>{text(report['rules'])}</pre>", f'<div class="kinds">{kinds}</div>',
            "<p>From d4 of an empty board of 8 by 8: a dot where it moves, a cross where it takes. What is one-sided is White's. A pawn is not drawn.</p>",
            table(("at the start", ""), counts), f"<p>Warnings of <code>lint</code>:</p><ul>{warnings}</ul>"]


def games_part(report: Dict[str, Any], pictures: Dict[str, str]) -> List[str]:
    """What the games say."""
    found = ["<h2>Results</h2>", pictures["ends"], definition("score"), definition("drawn"), definition("unfinished"), "<h2>Length</h2>", pictures["lengths"], definition("length"),
             "<h2>By ply</h2>", pictures["branching"], definition("branching"), pictures["captures"], definition("captures"), pictures["checks"], definition("checks")]
    if "hands" in pictures:
        found += [pictures["hands"], definition("hands")]
    return found + ["<h2>Leads</h2>", definition("decisiveness"), definition("lead changes"), definition("deciding change")]


def worth_part(report: Dict[str, Any], pictures: Dict[str, str]) -> List[str]:
    """What pieces are worth."""
    rows = [(row["letter"], share(row["score"]), row["score"]["total"], number(row["value"], 2), f"{number(row['low'], 2)} to {number(row['high'], 2)}" if row["value"] is not None else "-",
             number(row["own"], 2), row["note"]) for row in report["worth"]]
    left = f"<p>Not told, since a side without it has no legal start: {text(', '.join(report['worth left out']))}.</p>" if report["worth left out"] else ""
    return ["<h2>What pieces are worth</h2>", pictures.get("worth", ""),
            table(("kind", "score without it", "games", "value in pawns", "interval", "engine's own", ""), rows), left, f'<p class="definition">{text(handicap.DEFINITION)}.</p>']


def openings_part(report: Dict[str, Any], pictures: Dict[str, str]) -> List[str]:
    """First moves, and whether the start is won."""
    forced = "".join(f"<li>{text(one)}</li>" for one in report["forced"])
    return ["<h2>Openings</h2>", "<p>The score of the side that makes the first move, by that move, with its interval; the number of games in brackets.</p>", pictures["openings"],
            f"<ul>{forced}</ul>"]


def mates_part(report: Dict[str, Any]) -> List[str]:
    """Mates that were seen, one with its strategy."""
    mate = report["mate"]
    shortest = report["shortest"]
    found = ["<h2>Mates</h2>", f"<p>The shortest game that ended by checkmate: {text(shortest)}.</p>" if shortest else "<p>No game ended by checkmate.</p>"]
    if mate is None:
        return found + ["<p>No mate was found before the end of the games that were looked at.</p>"]
    checked = "The program's checker says that it wins." if mate["checked"] else "The program's checker refuses it."
    return found + [f"<p>A mate in {mate['moves']} of game {mate['game']}, in <code>{text(mate['fen'])}</code>, with its strategy. {checked}</p>", f"<pre>{text(mate['strategy'])}</pre>"]


def page_of(report: Dict[str, Any], pictures: Dict[str, str]) -> str:
    """The page of one report."""
    verdicts = "".join(f'<p class="verdict">{text(one)}</p>' for one in report["verdicts"])
    parts = [f"<h1>{text(report['variant'])}</h1>", f"<p>{text(report['played'])}</p>", verdicts, summary(report["numbers"])]
    parts += rules_part(report, pictures) + games_part(report, pictures) + worth_part(report, pictures) + openings_part(report, pictures) + mates_part(report)
    return html_of(f"{report['variant']}: a report", "\n".join(parts))


def pair_page(reports: Sequence[Dict[str, Any]], pictures: Sequence[Dict[str, str]]) -> str:
    """Two reports side by side."""
    heads = "".join(f"<div><h1>{text(one['variant'])}</h1><p>{text(one['played'])}</p>" + "".join(f'<p class="verdict">{text(word)}</p>' for word in one["verdicts"])
                    + summary(one["numbers"]) + "</div>" for one in reports)
    rows = []
    for name, title in (("ends", "Results"), ("lengths", "Length"), ("branching", "Branching"), ("captures", "Captures"), ("checks", "Checks"), ("hands", "Hands"),
                        ("worth", "What pieces are worth"), ("openings", "Openings")):
        if any(name in one for one in pictures):
            rows.append(f'<h2>{title}</h2><div class="columns">' + "".join(f"<div>{one.get(name, '<p>none</p>')}</div>" for one in pictures) + "</div>")
    definitions = "".join(definition(name) for name in DEFINITIONS)
    return html_of(" and ".join(one["variant"] for one in reports), f'<div class="columns">{heads}</div>' + "".join(rows) + "<h2>Definitions</h2>" + definitions)


def html_of(title: str, body: str) -> str:
    """A page with this body."""
    return (f'<!DOCTYPE html>\n<html lang="en">\n<head>\n<meta charset="utf-8">\n<meta name="viewport" content="width=device-width">\n<title>{text(title)}</title>\n<style>{STYLE}</style>\n'
            f"</head>\n<body>\n{body}\n</body>\n</html>\n")
