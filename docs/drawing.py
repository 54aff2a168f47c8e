"""What the plots and the pictures of the pages share: their width, their colours in light and dark mode, text, and how a file is written or
compared."""
import html
import os

DOCS = os.path.dirname(os.path.abspath(__file__))
# So that text can be read if a page is 400 pixels wide.
WIDTH, LEFT, LINE = 440, 12, 18
STYLE = """<style>
text { font: 13px system-ui, sans-serif; fill: #1b1f24 }
.title { font-weight: 600 }
.back { fill: #ffffff; stroke: #d0d7de }
.own { fill: #1f6feb }
.other { fill: #c2631b }
%s@media (prefers-color-scheme: dark) {
text { fill: #e6edf3 }
.back { fill: #0d1117; stroke: #3d444d }
.own { fill: #58a6ff }
.other { fill: #f0883e }
%s}
</style>"""


def read(path):
    with open(os.path.join(DOCS, path), encoding="utf-8") as file:
        return file.read()


def text(x, y, words, of=""):
    return f'<text x="{x}" y="{y}"{of}>{html.escape(words)}</text>'


def picture(height, shapes, light="", dark=""):
    """The shapes on a sheet of this height, with more styles for light and dark mode."""
    return (f'<svg xmlns="http://www.w3.org/2000/svg" width="{WIDTH}" height="{height}" viewBox="0 0 {WIDTH} {height}">\n{STYLE % (light, dark)}\n'
            f'<rect class="back" x="0.5" y="0.5" width="{WIDTH - 1}" height="{height - 1}" rx="6"/>\n' + "\n".join(shapes) + "\n</svg>\n")


def keep(drawn, is_check, otherwise):
    """Writes each file with its drawing; or, to check, names each that differs. Returns how many do."""
    wrong = 0
    for name, drawing in drawn.items():
        path = os.path.join(DOCS, name)
        if not is_check:
            with open(path, "w", encoding="utf-8") as file:
                file.write(drawing)
        elif not os.path.exists(path) or read(path) != drawing:
            print(f"docs/{name} {otherwise}")
            wrong += 1
    return wrong
