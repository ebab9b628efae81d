#!/usr/bin/env python3
"""Makes the example of a job: curves.csv, daylight.csv, lamp.csv.

Nothing here was measured. The dyes are bands of absorption, their dyeings follow the theory but for a small
departure and the rounding to 0.01 percent, and the lights are radiators of 6500 K and 2856 K by Planck's law
with the published approximation of the CIE 1931 observer by Wyman, Sloan and Shirley (2013).
"""
import math

WAVELENGTHS = range(400, 701, 10)

# name: bands of (peak in nm, width in nm, K/S of 1 percent at the peak)
DYES = {
    "yellow": [(420, 38, 9.0), (470, 26, 3.2)],
    "orange": [(485, 40, 10.5)],
    "red": [(525, 34, 12.0), (560, 22, 4.5)],
    "bordeaux": [(540, 48, 8.0)],
    "blue": [(600, 42, 11.0), (640, 26, 5.0)],
    "navy": [(590, 70, 13.5)],
}
PERCENT = [0.25, 0.5, 1.0, 2.0]


def absorption(name, nm):
    return sum(k * math.exp(-(((nm - peak) / width) ** 2) / 2) for peak, width, k in DYES[name])


def undyed(nm):
    return 0.84 - 0.16 * math.exp(-(nm - 400) / 60)


def ks(r):
    return (1 - r) ** 2 / (2 * r)


def reflectance(q):
    return 1 + q - math.sqrt(q * q + 2 * q)


def dyed(nm, recipe):
    # at depth a dyeing takes up a little less than in proportion
    return reflectance(ks(undyed(nm)) + sum(absorption(n, nm) * c ** 0.985 for n, c in recipe))


def bump(x, mean, low, high):
    return math.exp(-((x - mean) / (low if x < mean else high)) ** 2 / 2)


def observer(nm):
    x = 1.056 * bump(nm, 599.8, 37.9, 31.0) + 0.362 * bump(nm, 442.0, 16.0, 26.7) - 0.065 * bump(nm, 501.1, 20.4, 26.2)
    y = 0.821 * bump(nm, 568.8, 46.9, 40.5) + 0.286 * bump(nm, 530.9, 16.3, 31.1)
    z = 1.217 * bump(nm, 437.0, 11.8, 36.0) + 0.681 * bump(nm, 459.0, 26.0, 13.8)
    return x, y, z


def radiator(kelvin, nm):
    return (560 / nm) ** 5 * (math.exp(0.01438777 / (560e-9 * kelvin)) - 1) / (math.exp(0.01438777 / (nm * 1e-9 * kelvin)) - 1)


def write_curves():
    columns = {"cotton": lambda nm: undyed(nm)}
    # the shade to be matched: dyed elsewhere, on another cotton, with dyes of slightly other bands
    columns["olive"] = lambda nm: 0.994 * dyed(nm + 1, [("yellow", 1.3), ("red", 0.29), ("blue", 0.66)])
    for name in DYES:
        for percent in PERCENT:
            columns[f"{name}{round(percent * 100):03d}"] = lambda nm, n=name, p=percent: dyed(nm, [(n, p)])
    # a batch that was dyed with the recipe that `predict olive.toml` prints, and took up less of it
    columns["batch"] = lambda nm: dyed(nm, [("yellow", 0.9 * 1.06), ("blue", 0.93 * 0.06), ("navy", 0.93 * 0.56)])
    with open("curves.csv", "w") as out:
        out.write("nm," + ",".join(columns) + "\n")
        for nm in WAVELENGTHS:
            out.write(f"{nm}," + ",".join(f"{100 * f(nm):.2f}" for f in columns.values()) + "\n")


def write_light(name, kelvin):
    rows = {nm: [radiator(kelvin, nm) * c for c in observer(nm)] for nm in WAVELENGTHS}
    scale = 100 / sum(row[1] for row in rows.values())
    # sums of thousandths, so that the row `white` is exactly the sum of the columns
    counts = {nm: [round(1000 * scale * c) for c in row] for nm, row in rows.items()}
    with open(name, "w") as out:
        out.write("nm,X,Y,Z\n")
        for nm, row in counts.items():
            out.write(f"{nm}," + ",".join(f"{n / 1000:.3f}" for n in row) + "\n")
        white = [sum(row[i] for row in counts.values()) for i in range(3)]
        out.write("white," + ",".join(f"{n / 1000:.3f}" for n in white) + "\n")


write_curves()
write_light("daylight.csv", 6500)
write_light("lamp.csv", 2856)
