"""A laboratory for designers of variants: games that the program plays, and a report on them (docs/LAB.md)."""
