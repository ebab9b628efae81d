"""Writes the jobs of `dye demo` as files, without the program: what docs/formats.md says of a generated job, in decimals.

    python3 bench/demo_jobs.py FOLDER

makes FOLDER/1 to FOLDER/10, each with job.toml, demo.csv, demo1.csv and demo2.csv, and FOLDER/wide, the first job with up to six
dyes in a recipe, tolerances of 0.010 and a budget of 1,000,000.
"""
import os
import sys
from decimal import Decimal, getcontext

getcontext().prec = 60
WAVES = range(31)
UNITS = [200, 500, 1000, 2000]


def triangle(height, peak, index):
    return max(0, height - abs(index - peak))


def ks(millionths):
    r = Decimal(millionths) / 10**6
    return (1 - r) ** 2 / (2 * r)


class Draws:
    def __init__(self, number):
        self.x = number

    def below(self, n):
        self.x = (self.x * 6364136223846793005 + 1442695040888963407) % 2**64
        return (self.x >> 33) % n


def drawn(number):
    """The dyes (centre, height, price, fee) and the hidden recipe."""
    draws = Draws(number)
    dyes = []
    for i in range(6):
        centre, height = 5 * i + 2 + draws.below(4), 200 + draws.below(200)
        dyes.append((centre, height, 20 + draws.below(80), draws.below(2000)))
    hidden = [0] * 6
    for first in (0, 2, 4):
        dye = first + draws.below(2)
        hidden[dye] = 20 + draws.below(100)
    return dyes, hidden


def dyed(cloth, dye, units, index):
    centre, height, _, _ = dye
    strength = height * triangle(9, centre, index) // 9 + 5
    return max(100, cloth * 1000 // (1000 + strength * units // 100))


def standard(substrate, dyeings, hidden):
    """The reflectances of the hidden recipe."""
    curve = []
    for k in WAVES:
        base = ks(substrate[k])
        q = base
        for i, steps in enumerate(hidden):
            gains = (c * max(Decimal(0), ks(dyeings[i, c][k]) - base) for c in UNITS)
            q += 10 * steps * sum(gains) / sum(c * c for c in UNITS)
        curve.append(max(100, int(10**6 / (1 + q + (q * q + 2 * q).sqrt()))))
    return curve


def curve_text(substrate, target, dyeings):
    names = ["sub", "std"] + [f"d{i + 1}c{UNITS.index(c) + 1}" for i, c in dyeings]
    curves = [substrate, target] + list(dyeings.values())
    lines = ["nm," + ",".join(names)]
    for k in WAVES:
        fields = [f"{c[k] // 10000}.{c[k] % 10000:04}" for c in curves]
        lines.append(f"{400 + 10 * k}," + ",".join(fields))
    return "\n".join(lines) + "\n"


def weights_texts():
    first, second = ["nm,X,Y,Z"], ["nm,X,Y,Z"]
    for k in WAVES:
        x, y, z = triangle(8, 20, k) + triangle(3, 4, k), triangle(10, 15, k), 2 * triangle(6, 5, k)
        first.append(f"{400 + 10 * k},{x},{y},{z}")
        tenths = [f"{w * (10 + k) // 10}.{w * (10 + k) % 10}" for w in (x, y, z)]
        second.append(f"{400 + 10 * k}," + ",".join(tenths))
    ends = ["white,73,100,72\n"], ["white,204.6,250.0,108.0\n"]
    return "\n".join(first + ends[0]), "\n".join(second + ends[1])


def job_text(dyes, max_dyes, tolerances, budget):
    text = 'version = 1\ncurves = "demo.csv"\nsubstrate = "sub"\nstandard = "std"\n'
    text += f"max_dyes = {max_dyes}\nmax_total = 8000\nbudget = {budget}\n"
    for light, tolerance in enumerate(tolerances):
        text += f'[[light]]\nweights = "demo{light + 1}.csv"\ntolerance = {tolerance}\n'
    for i, (_, _, price, fee) in enumerate(dyes):
        text += f'[[dye]]\nname = "d{i + 1}"\nprice = {price}\nfee = {fee}\nstep = 10\nmost = 400\n'
        for j, units in enumerate(UNITS):
            text += f'[[dye.dyeing]]\nunits = {units}\ncurve = "d{i + 1}c{j + 1}"\n'
    return text


def write(folder, number, max_dyes=3, tolerances=(1000, 1500), budget=20000):
    dyes, hidden = drawn(number)
    substrate = [750000 + 3000 * k for k in WAVES]
    dyeings = {
        (i, c): [dyed(substrate[k], dye, c, k) for k in WAVES] for i, dye in enumerate(dyes) for c in UNITS
    }
    texts = {
        "demo.csv": curve_text(substrate, standard(substrate, dyeings, hidden), dyeings),
        "job.toml": job_text(dyes, max_dyes, tolerances, budget),
    }
    texts["demo1.csv"], texts["demo2.csv"] = weights_texts()
    os.makedirs(folder, exist_ok=True)
    for name, text in texts.items():
        with open(f"{folder}/{name}", "w") as file:
            file.write(text)


for number in range(1, 11):
    write(f"{sys.argv[1]}/{number}", number)
write(f"{sys.argv[1]}/wide", 1, max_dyes=6, tolerances=(10, 10), budget=1000000)
