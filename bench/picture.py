"""Draws times as a picture: bars on a scale of powers of ten, in a panel for each problem. The scripts that measure
call it."""
from html import escape
from math import log10

PANELS_IN_A_ROW = 3
# In pixels: a line, a panel's title with its scale, a panel, the names at the left, and the room around all.
LINE, TITLE, WIDTH, NAMES, MARGIN = 17, 40, 230, 190, 14
BAR, GAP, HEAD, FOOT = 11, 34, 30, 24
# The program and the library stand out.
OWN, OTHER = "#c2410c", "#64748b"


class Scale:
    """Where seconds stand, between powers of ten."""

    def __init__(self, seconds):
        self.least = 10.0 ** (len(str(int(1 / min(seconds)))) * -1)
        self.most = 10.0 ** len(str(int(max(seconds)))) if max(seconds) >= 1 else 1.0

    def place(self, seconds):
        return WIDTH * log10(max(seconds, self.least) / self.least) / log10(self.most / self.least)

    def marks(self):
        """The powers of ten, with their places."""
        count = round(log10(self.most / self.least))
        return [(self.least * 10**number, WIDTH * number / count) for number in range(count + 1)]


def shown(seconds):
    return f"{seconds:.3g}"


def text(x, y, words, kind="", anchor="start"):
    return (f'<text x="{x:.1f}" y="{y:.1f}" '
            f'text-anchor="{anchor}"{f" class={chr(34)}{kind}{chr(34)}" if kind else ""}>{escape(words)}</text>')


def panel(x, y, title, rows, names, scale):
    """A problem: its title, the scale, and a bar for each solver: filled of solving alone, in outline of a whole
    run."""
    bottom = y + TITLE + LINE * len(names)
    yield text(x, y + 12, title, "title")
    for seconds, place in scale.marks():
        yield f'<line x1="{x + place:.1f}" x2="{x + place:.1f}" y1="{y + TITLE - 4}" y2="{bottom}" class="grid"/>'
        yield text(x + place, y + TITLE - 10, shown(seconds), "small", "middle")
    for number, name in enumerate(names):
        top = y + TITLE + LINE * number + (LINE - BAR) / 2
        yield from bars(x, top, rows.get(name, (None, None)), scale, OWN if is_own(name) else OTHER)


def bars(x, top, seconds, scale, colour):
    """A solver's bars, and its numbers after the longer one."""
    whole, alone = seconds
    if alone is not None:
        yield f'<rect x="{x}" y="{top:.1f}" width="{scale.place(alone):.1f}" height="{BAR}" fill="{colour}"/>'
    if whole is not None:
        yield (f'<rect x="{x}" y="{top:.1f}" width="{scale.place(whole):.1f}" height="{BAR}" fill="none" '
               f'stroke="{colour}"/>')
    numbers = [form.format(shown(one)) for one, form in ((whole, "{}"), (alone, "({})")) if one is not None]
    if numbers:
        yield text(x + scale.place(max(one for one in seconds if one is not None)) + 4, top + BAR - 2,
                   " ".join(numbers), "small")


def is_own(name):
    return name.startswith(("program", "library"))


def picture(heading, problems, foot):
    """The picture of problems: each a title with the seconds by solver, of a whole run and of solving alone, None where
    there is none."""
    names = list(dict.fromkeys(name for _, rows in problems for name in rows))
    scale = Scale([one for _, rows in problems for both in rows.values() for one in both if one is not None])
    height = TITLE + LINE * len(names) + GAP
    lines = -(-len(problems) // PANELS_IN_A_ROW)
    width = MARGIN * 2 + NAMES + (WIDTH + 80) * min(PANELS_IN_A_ROW, len(problems))
    pieces = [text(MARGIN, MARGIN + 14, heading, "heading")]
    for line in range(lines):
        top = MARGIN + HEAD + height * line
        pieces += [text(MARGIN, top + TITLE + LINE * number + LINE - 5, name, "own" if is_own(name) else "")
                   for number, name in enumerate(names)]
        for column, (title, rows) in enumerate(problems[line * PANELS_IN_A_ROW:(line + 1) * PANELS_IN_A_ROW]):
            pieces += panel(MARGIN + NAMES + (WIDTH + 80) * column, top, title, rows, names, scale)
    bottom = MARGIN + HEAD + height * lines + FOOT
    pieces.append(text(MARGIN, bottom - 12, foot, "small"))
    style = ("text { font: 12px sans-serif; fill: #1b1b1b } .small { font-size: 10px } .title, .heading, .own { "
             "font-weight: bold } .heading { font-size: 14px } .grid { stroke: #d0d0d0 }")
    return (f'<svg xmlns="http://www.w3.org/2000/svg" viewBox="0 0 {width} {bottom}" width="{width}" '
            f'height="{bottom}">\n<style>{style}</style>\n<rect width="100%" height="100%" fill="#fff"/>\n'
            + "\n".join(pieces) + "\n</svg>\n")
