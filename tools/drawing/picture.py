"""A picture in SVG: lines, bars, dots and words."""
import html

INK, FAINT, PALE, BAD = "#1b2a41", "#8a96a3", "#d5dbe1", "#c0392b"
# About how wide a letter is, of a size of 12.
LETTER = 6.6
HEAD = (f'<marker id="head" viewBox="0 0 8 8" refX="7" refY="4" markerWidth="7" markerHeight="7" '
        f'orient="auto-start-reverse"><path d="M0 0L8 4L0 8z" fill="{INK}"/></marker>')
HEADS = {None: "", "end": ' marker-end="url(#head)"', "both": ' marker-end="url(#head)" marker-start="url(#head)"'}


class Picture:
    """Shapes, with words over them, and the text of the SVG that has them."""

    def __init__(self):
        self.shapes, self.words, self.width, self.height = [], [], 0, 0

    def reach(self, x, y):
        """Makes room up to a point."""
        self.width, self.height = max(self.width, x), max(self.height, y)

    def line(self, ends, colour=INK, dashes=None, arrow=None, width=1.4):
        """A line from a point to a point; `arrow` is "end" or "both"."""
        (x1, y1), (x2, y2) = ends
        style = f' stroke-dasharray="{dashes}"' if dashes else ""
        self.shapes.append(f'<line x1="{x1:g}" y1="{y1:g}" x2="{x2:g}" y2="{y2:g}" stroke="{colour}" '
                           f'stroke-width="{width:g}"{style}{HEADS[arrow]}/>')
        self.reach(max(x1, x2) + 20, max(y1, y2) + 20)

    def text(self, at, words, colour=INK, anchor="start", size=12):
        """Words at a point."""
        halo = 'stroke="white" stroke-width="3" paint-order="stroke"'
        self.words.append(f'<text x="{at[0]:g}" y="{at[1]:g}" fill="{colour}" text-anchor="{anchor}" {halo} '
                          f'font-size="{size}">{html.escape(words)}</text>')
        share = {"start": 1, "middle": 0.5, "end": 0}[anchor]
        self.reach(at[0] + share * LETTER * size / 12 * len(words) + 10, at[1] + 10)

    def bar(self, at, width, colour):
        """A bar along a line, with a hint of its colour."""
        self.shapes.append(f'<rect x="{at[0]:g}" y="{at[1] - 6:g}" width="{width:g}" height="12" rx="3" '
                           f'fill="{colour}" fill-opacity="0.25" stroke="{colour}"/>')
        self.reach(at[0] + width + 10, at[1] + 10)

    def dot(self, at, colour, radius=3.5):
        """A point that something happened at."""
        self.shapes.append(f'<circle cx="{at[0]:g}" cy="{at[1]:g}" r="{radius:g}" fill="{colour}"/>')

    def svg(self):
        """The whole text."""
        size = f'width="{self.width:g}" height="{self.height:g}" viewBox="0 0 {self.width:g} {self.height:g}"'
        lines = [f'<svg xmlns="http://www.w3.org/2000/svg" {size} font-family="sans-serif">',
                 f"<defs>{HEAD}</defs>",
                 '<rect width="100%" height="100%" fill="white"/>', *self.shapes, *self.words, "</svg>"]
        return "\n".join(lines) + "\n"
