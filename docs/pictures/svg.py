"""Draws SVG: what the pictures of this folder share. Each is on a white panel, so it can be read on any ground."""

import math
import os
import sys

from widths import width_of

FOLDER = os.path.dirname(os.path.abspath(__file__))
FONT = "DejaVu Sans, Verdana, Helvetica, Arial, sans-serif"
INK, SOFT = "#1f2328", "#57606a"
BLUE, ORANGE, GREEN, RED, GREY = "#0072b2", "#d97900", "#00855f", "#b3261e", "#8c959f"


# How near a text may come to the edge of its box.
MARGIN = 2


def fitted(text, size, width):
    """The size at which a text fits into a box of this width: the given one, or a smaller one."""
    while width_of(text, size) > width - 4 * MARGIN:
        size -= 0.5
    return size


def escape(text):
    return text.replace("&", "&amp;").replace("<", "&lt;").replace(">", "&gt;")


class Picture:
    def __init__(self, width, height, title, description):
        self.boxes, self.texts = [(1, 1, width - 2, height - 2)], []
        self.parts = [
            f'<svg xmlns="http://www.w3.org/2000/svg" viewBox="0 0 {width} {height}" width="{width}" '
            f'height="{height}" role="img" font-family="{FONT}">',
            f"<title>{escape(title)}</title>",
            f"<desc>{escape(description)}</desc>",
            f'<rect x="1" y="1" width="{width - 2}" height="{height - 2}" rx="8" fill="#ffffff" stroke="#d0d7de"/>',
        ]

    def rect(self, x, y, width, height, fill="#ffffff", stroke=INK, radius=6, thick=1.5, dash=""):
        self.boxes.append((x, y, width, height))
        dashed = f' stroke-dasharray="{dash}"' if dash else ""
        self.parts.append(
            f'<rect x="{x:g}" y="{y:g}" width="{width:g}" height="{height:g}" rx="{radius}" fill="{fill}" '
            f'stroke="{stroke}" stroke-width="{thick}"{dashed}/>'
        )

    def text(self, x, y, text, size=14, fill=INK, anchor="middle", bold=False):
        width = width_of(text, size, bold)
        self.texts.append((x - {"start": 0, "middle": width / 2, "end": width}[anchor], y, width, size, text))
        weight = ' font-weight="bold"' if bold else ""
        self.parts.append(
            f'<text x="{x:g}" y="{y:g}" font-size="{size}" fill="{fill}" text-anchor="{anchor}"{weight}>'
            f"{escape(text)}</text>"
        )

    def line(self, points, stroke=INK, thick=1.5, dash=""):
        dashed = f' stroke-dasharray="{dash}"' if dash else ""
        path = " ".join(f"{x:g},{y:g}" for x, y in points)
        self.parts.append(
            f'<polyline points="{path}" fill="none" stroke="{stroke}" stroke-width="{thick}"{dashed}/>'
        )

    def arrow(self, points, stroke=INK, thick=1.5):
        """A line whose last point is the tip of an arrow."""
        (x0, y0), (x1, y1) = points[-2], points[-1]
        angle = math.atan2(y1 - y0, x1 - x0)
        back = (x1 - 9 * math.cos(angle), y1 - 9 * math.sin(angle))
        self.line([*points[:-1], back], stroke, thick)
        sides = [
            (x1 - 10 * math.cos(angle + turn), y1 - 10 * math.sin(angle + turn)) for turn in (-0.42, 0.42)
        ]
        path = " ".join(f"{x:.1f},{y:.1f}" for x, y in [(x1, y1), *sides])
        self.parts.append(f'<polygon points="{path}" fill="{stroke}"/>')

    def too_wide(self):
        """The texts that are wider than the smallest box that their middle lies in."""
        found = []
        for left, y, width, size, text in self.texts:
            x, height = left + width / 2, y - size / 3
            around = [it for it in self.boxes if it[0] <= x <= it[0] + it[2] and it[1] <= height <= it[1] + it[3]]
            box = min(around, key=lambda it: it[2] * it[3], default=(x, y, 0, 0))
            if left < box[0] + MARGIN or left + width > box[0] + box[2] - MARGIN:
                found.append(f"{text!r} takes {left:.0f} to {left + width:.0f}, its box {box[0]:.0f} to {box[0] + box[2]:.0f}")
        return found

    def finish(self, name):
        """Writes the picture; with --check, only says whether the file is as it would be written. A text that doesn't fit its box
        is a fault."""
        if self.too_wide():
            sys.exit("\n".join(f"docs/pictures/{name}: {it}" for it in self.too_wide()))
        text = "\n".join([*self.parts, "</svg>"]) + "\n"
        path = os.path.join(FOLDER, name)
        if sys.argv[1:] == ["--check"]:
            with open(path, encoding="utf-8") as file:
                if file.read() != text:
                    sys.exit(f"docs/pictures/{name} is out of date")
            return
        with open(path, "w", encoding="utf-8") as file:
            file.write(text)
