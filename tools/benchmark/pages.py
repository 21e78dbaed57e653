"""Writes the tables into docs/SPEED.md, between their marks, and the plot beside it."""
import re

from tools.benchmark.plot import svg


def replaced(text, name, lines):
    """The text with the lines between the marks of that block."""
    block = f"<!-- bench: {name} -->\n" + "\n".join(lines) + "\n<!-- end -->"
    made, count = re.subn(f"<!-- bench: {name} -->.*?<!-- end -->", lambda _: block, text, flags=re.S)
    assert count == 1, f"docs/SPEED.md has {count} blocks {name}"
    return made


def write_tables(docs, tables):
    page = docs / "SPEED.md"
    text = page.read_text()
    for name, lines in tables.items():
        text = replaced(text, name, lines)
    page.write_text(text)


def write_plot(docs, figures):
    (docs / "speed.svg").write_text(svg(figures))
