"""What a page of HTML is made of, for tools/report: its style, tables and drawings. It asks for
nothing from outside.
"""
from html import escape

WIDTH, HEIGHT = 720, 160  # of a drawing, in its own units
PLURALS = {"entry": "entries"}

# blues let through, reds destroyed, grey waits
COLOURS = {
    "accept": "#1f6fb4", "stop": "#4a93cf", "repeat": "#7db3e0", "failopen": "#0f9aa5",
    "bypass": "#5cc0c4", "unhooked": "#a9c4d9", "drop": "#c0392b", "overflow": "#e2711d",
    "userfull": "#f0a35b", "noqueue": "#8e3b6b", "copynone": "#b56a94", "loop": "#6b2d2d",
    "unbind": "#d98880", "portclosed": "#a04000", "devicedown": "#7b241c", "waiting": "#8a8f98",
    "nomemory": "#3d3d3d",
}

STYLE = """
:root { --ink: #1c2530; --soft: #5c6773; --line: #d8dee5; --back: #ffffff; --card: #f6f8fa; }
@media (prefers-color-scheme: dark) {
  :root { --ink: #e6eaef; --soft: #9aa5b1; --line: #39424d; --back: #14191f; --card: #1c232b; } }
body { font: 15px/1.5 system-ui, sans-serif; color: var(--ink); background: var(--back);
  max-width: 800px; margin: 2rem auto; padding: 0 1rem; }
h1 { font-size: 1.5rem; margin-bottom: 0; } h2 { font-size: 1.1rem; margin-top: 2.2rem; }
h3 { font-size: .95rem; margin: 1.2rem 0 .2rem; } p, .note { color: var(--soft); margin: .3rem 0; }
svg { width: 100%; height: auto; background: var(--card); border-radius: 6px; display: block; }
svg text { font-size: 11px; fill: var(--soft); } .axis { stroke: var(--line); }
.wait { fill: none; stroke: #1f6fb4; stroke-width: 1.5; } .under { fill: #1f6fb4; opacity: .15; }
table { border-collapse: collapse; width: 100%; } .scroll { overflow-x: auto; }
td, th { padding: .25rem .5rem; border-bottom: 1px solid var(--line); text-align: right; }
td { white-space: nowrap; } td:first-child { white-space: normal; }
td:first-child, th:first-child { text-align: left; } th { font-weight: 600; color: var(--soft); }
.bar { height: 14px; border-radius: 3px; min-width: 2px; } .bars { width: 14rem; }
.key { display: inline-block; width: .8em; height: .8em; border-radius: 2px; margin-right: .3em; }
.legend span.one { margin-right: 1em; white-space: nowrap; font-size: .85rem; }
"""


def count(number):
    return f"{number:,}"


def many(number, what):
    return f"{count(number)} {what if number == 1 else PLURALS.get(what, what + 's')}"


def key(fate):
    return f'<span class="key" style="background:{COLOURS[fate]}"></span>'


def table(head, rows):
    cells = "".join(f"<th>{escape(word)}</th>" for word in head)
    body = "".join(f"<tr>{''.join(f'<td>{cell}</td>' for cell in row)}</tr>\n" for row in rows)
    return f'<div class="scroll"><table><tr>{cells}</tr>\n{body}</table></div>\n'


def drawing(label, inside, top, left, right):
    """A drawing with the largest value of its height, and what its left and right ends are."""
    base = HEIGHT - 18
    return (f'<svg viewBox="0 0 {WIDTH} {HEIGHT}" role="img" aria-label="{escape(label)}">\n'
            f'<title>{escape(label)}</title>\n<line class="axis" x1="0" x2="{WIDTH}" y1="{base}" '
            f'y2="{base}"/>\n{inside}<text x="4" y="12">{escape(top)}</text>'
            f'<text x="4" y="{HEIGHT - 4}">{escape(left)}</text><text x="{WIDTH - 4}" '
            f'y="{HEIGHT - 4}" text-anchor="end">{escape(right)}</text></svg>\n')
