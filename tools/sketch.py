"""The shapes of the pictures that tools/layers.py and tools/tokens.py make, in the colours of those of pools."""
import html

WIDE, HIGH, SIZE = 1600, 44, 24
BLACK, DARK = (0, 0, 0), (110, 110, 110)


def rgb(colour):
    return f"rgb({','.join(map(str, colour))})"


def width_of(name):
    """How wide the box of a name is."""
    return 14 * len(name) + 24


def text(x, y, words, anchor="start", size=SIZE):
    return f'<text x="{x}" y="{y}" text-anchor="{anchor}" font-size="{size}">{html.escape(words, quote=False)}</text>\n'


def frame(x, y, width, height, fill):
    return f'<rect x="{x}" y="{y}" width="{width}" height="{height}" fill="{rgb(fill)}" stroke="{rgb(DARK)}"/>\n'


def box(x, y, width, fill, name):
    """A name in a frame."""
    return frame(x, y, width, HIGH, fill) + text(x + width // 2, y + HIGH // 2 + 9, name, "middle")


def line(x1, y1, x2, y2, colour=DARK, width=2):
    return f'<line x1="{x1}" y1="{y1}" x2="{x2}" y2="{y2}" stroke-width="{width}" stroke="{rgb(colour)}"/>\n'


def arrow(x1, y1, x2, y2, colour=DARK):
    """A line with a head at its end."""
    across, down = x2 - x1, y2 - y1
    size = (across * across + down * down) ** 0.5
    ahead, aside = (across / size, down / size), (-down / size, across / size)
    corners = [(x2, y2), *((x2 - 16 * ahead[0] + side * aside[0], y2 - 16 * ahead[1] + side * aside[1]) for side in (6, -6))]
    points = " ".join(f"{round(x)},{round(y)}" for x, y in corners)
    return line(x1, y1, x2, y2, colour) + f'<polygon points="{points}" fill="{rgb(colour)}"/>\n'


def cross(x, y):
    """A death."""
    return line(x - 12, y - 12, x + 12, y + 12, BLACK, 4) + line(x - 12, y + 12, x + 12, y - 12, BLACK, 4)


def picture(height, shapes):
    frame = f'<svg xmlns="http://www.w3.org/2000/svg" viewBox="0 0 {WIDE} {height}" font-family="sans-serif" font-size="{SIZE}">\n'
    return "".join([frame, f'<rect x="0" y="0" width="{WIDE}" height="{height}" fill="rgb(255,255,255)"/>\n', *shapes, "</svg>\n"])
