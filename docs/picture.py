#!/usr/bin/env python3
"""Draws docs/olive.svg from what `predict examples/olive.toml` printed and wrote.

    python3 docs/picture.py          at the top of the repository

It reads docs/olive.txt (the printed report), docs/olive.cert (the certificate), and the job with its curves. The curve
of the match is drawn by the formulas of docs/rules.md in floating point: it is an illustration, not a proved number.
"""
import csv
import math
import tomllib

WIDTH, HEIGHT, LEFT, TOP, BOTTOM = 460, 320, 52, 34, 44
KINDS = {"f": ("#c0392b", "a light fails"), "x": ("#7f8c8d", "a limit excludes"), "d": ("#aab7c4", "too dear"),
         "u": ("#e0a100", "undecided"), "p": ("#1e8449", "passes")}


def ks(r):
    return (1 - r) ** 2 / (2 * r)


def reflectance(q):
    return 1 / (1 + q + math.sqrt(q * q + 2 * q))


def read_curves(name):
    with open(name) as file:
        rows = list(csv.reader(file))
    return {column: [float(row[i]) / 100 for row in rows[1:]] for i, column in enumerate(rows[0]) if i > 0}


def slope(dye, curves, cloth, k):
    """The straight line through the origin that fits the dyeings, at the wavelength of index k."""
    added = [(d["units"], max(0.0, ks(curves[d["curve"]][k]) - ks(cloth[k]))) for d in dye["dyeing"]]
    return sum(c * y for c, y in added) / sum(c * c for c, y in added)


def mixture(job, curves, steps):
    cloth = curves[job["substrate"]]
    return [reflectance(ks(cloth[k]) + sum(n * dye["step"] * slope(dye, curves, cloth, k)
                                           for n, dye in zip(steps, job["dye"]) if n)) for k in range(len(cloth))]


def cost(job, steps):
    return sum(n * dye["step"] * dye["price"] + dye.get("fee", 0) for n, dye in zip(steps, job["dye"]) if n)


def leaves(job, lines):
    """The final boxes of the tree, in order: the kind of the line, and the corners of the box."""
    waiting = [([0] * len(job["dye"]), [dye["most"] for dye in job["dye"]])]
    for line in lines:
        low, high = waiting.pop()
        kind, *numbers = line.split()
        if kind == "s":
            dye, mid = int(numbers[0]) - 1, int(numbers[1])
            waiting.append((low[:dye] + [mid + 1] + low[dye + 1:], high))
            waiting.append((low, high[:dye] + [mid] + high[dye + 1:]))
        else:
            yield kind, low, high


def text(x, y, words, anchor="start", extra=""):
    return f'<text x="{x:.0f}" y="{y:.0f}" text-anchor="{anchor}" {extra}>{words}</text>'


class Panel:
    """A frame with two axes; x and y run from 0, `left` and `low` being what they begin with."""

    def __init__(self, shift, title, x_range, y_range):
        self.shift, self.x_range, self.y_range = shift, x_range, y_range
        self.out = [text(shift + LEFT, 20, title, extra='font-weight="bold"')]

    def x(self, value):
        low, high = self.x_range
        return self.shift + LEFT + (value - low) / (high - low) * (WIDTH - LEFT - 16)

    def y(self, value):
        low, high = self.y_range
        return HEIGHT - BOTTOM - (value - low) / (high - low) * (HEIGHT - TOP - BOTTOM)

    def axes(self, x_ticks, y_ticks, x_label):
        for value, words in x_ticks:
            self.out.append(text(self.x(value), HEIGHT - BOTTOM + 16, words, "middle"))
        for value, words in y_ticks:
            y = self.y(value)
            self.out.append(f'<path d="M{self.x(self.x_range[0]):.0f} {y:.1f}H{self.x(self.x_range[1]):.0f}" stroke="#ddd"/>')
            self.out.append(text(self.shift + LEFT - 6, y + 4, words, "end"))
        self.out.append(text(self.x(sum(self.x_range) / 2), HEIGHT - 8, x_label, "middle"))

    def curve(self, values, colour, dashes=""):
        points = " ".join(f"{self.x(400 + 10 * k):.1f},{self.y(100 * r):.1f}" for k, r in enumerate(values))
        self.out.append(f'<polyline points="{points}" fill="none" stroke="{colour}" stroke-width="2" stroke-dasharray="{dashes}"/>')


def curves_panel(job, curves, steps):
    panel = Panel(0, "Reflectance of the standard and of the match, in percent", (400, 700), (0, 40))
    panel.axes([(nm, nm) for nm in range(400, 701, 50)], [(v, v) for v in range(0, 41, 10)], "nm")
    panel.curve(curves[job["standard"]], "#4b5320")
    panel.curve(mixture(job, curves, steps), "#1e8449", "6 4")
    for k, (name, dashes, colour) in enumerate([("standard", "", "#4b5320"), ("match, predicted", "6 4", "#1e8449")]):
        y = TOP + 18 + 18 * k
        panel.out.append(f'<path d="M{LEFT + 12} {y}h30" stroke="{colour}" stroke-width="2" stroke-dasharray="{dashes}"/>')
        panel.out.append(text(LEFT + 48, y + 4, name))
    return panel.out


def boxes_panel(job, steps, lines):
    boxes = [(kind, cost(job, low), math.log10(math.prod(h - l + 1 for l, h in zip(low, high)))) for kind, low, high in leaves(job, lines)]
    match = cost(job, steps)
    panel = Panel(WIDTH, "Boxes of the certificate: how many recipes each has", (0, 2 * match), (0, 9.5))
    ticks = range(0, 2 * match, 20000)
    panel.axes([(v, f"{v:,}") for v in ticks], [(v, f"10^{v}") for v in range(0, 10, 3)], "cost of the cheapest recipe in the box")
    dots = {(kind, round(panel.x(c)), round(panel.y(size))) for kind, c, size in boxes if c <= 2 * match}
    for kind, x, y in sorted(dots):
        panel.out.append(f'<circle cx="{x}" cy="{y}" r="{5 if kind in "pu" else 2}" fill="{KINDS[kind][0]}"/>')
    panel.out.append(f'<path d="M{panel.x(match):.1f} {TOP}V{HEIGHT - BOTTOM}" stroke="#1e8449" stroke-dasharray="2 3"/>')
    counts = {kind: sum(1 for box in boxes if box[0] == kind) for kind in KINDS}
    for k, (kind, (colour, name)) in enumerate((kind, KINDS[kind]) for kind in KINDS if counts[kind]):
        y = TOP + 14 + 16 * k
        panel.out.append(f'<circle cx="{2 * WIDTH - 165}" cy="{y}" r="4" fill="{colour}"/>')
        panel.out.append(text(2 * WIDTH - 155, y + 4, f"{name}: {counts[kind]:,}"))
    return panel.out


def main():
    with open("examples/olive.toml", "rb") as file:
        job = tomllib.load(file)
    curves = read_curves("examples/" + job["curves"])
    with open("docs/olive.txt") as file:
        steps = [int(line.split(" steps ")[1].split()[0]) for line in file if line.startswith("dye ")]
    with open("docs/olive.cert") as file:
        lines = file.read().splitlines()
    tree = lines[3 + int(lines[2].split()[1]):]
    body = curves_panel(job, curves, steps) + boxes_panel(job, steps, tree)
    with open("docs/olive.svg", "w") as out:
        out.write(f'<svg xmlns="http://www.w3.org/2000/svg" viewBox="0 0 {2 * WIDTH} {HEIGHT}" font-family="sans-serif" font-size="12">\n')
        out.write(f'<rect width="{2 * WIDTH}" height="{HEIGHT}" fill="white"/>\n')
        out.write("\n".join(body) + "\n</svg>\n")


main()
