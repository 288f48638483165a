#!/usr/bin/env python3
"""The numbers of crates/*/specs/ExactCases.antt, worked with exact fractions from the papers, and not from the Rattle code.

From 01-scope.md: "Reference" (the angle brought to -180 up to but not 180, pi = 3.14159265358979323846, the first 20 terms of
the series) and "Exact sums" (the polynomials in degrees, E, the rows' angles and weights, the additions, the Sun's groups; the
additions and A1 to A3 are those of "Moon"). The rows and the coefficients of L', D, M, M' and F: the csv files in tests/tables.

    python3 tests/exact_cases.py            compare every case of ExactCases.antt; exit 1 on a difference
    python3 tests/exact_cases.py --print    print the list of cases as it should stand there
"""
import csv
import re
import sys
from fractions import Fraction
from math import factorial, floor
from pathlib import Path

ROOT = Path(__file__).resolve().parent.parent
TABLES = ROOT / "tests" / "tables"
SCALE = 10 ** 30

# The two instants, TT in milliseconds from noon of 2000-01-01.
INSTANTS = {"₁": -3_155_724_800_900, "₂": 1_234_567_890_123}


def rows(name):
    """the numbers of a csv file below its head; a blank is 0"""
    with open(TABLES / f"{name}.csv", newline="") as file:
        return list(csv.reader(file))[1:]


def whole(row):
    return [int(entry or 0) for entry in row]


# ---- Reference
PI = Fraction("3.14159265358979323846")


def brought(degrees):
    return degrees - 360 * floor((degrees + 180) / 360)


def series(angle, first):
    """the 20 terms with nonzero coefficient from the power `first` on: 1 for sine, 0 for cosine"""
    return sum((-1) ** i * angle ** (2 * i + first) / factorial(2 * i + first) for i in range(20))


def sine(degrees):
    return series(brought(degrees) * PI / 180, 1)


def cosine(degrees):
    return series(brought(degrees) * PI / 180, 0)


def in_degrees(radians):
    return radians * 180 / PI


# ---- Exact sums: the Moon
LONGITUDE_DISTANCE = [whole(row) for row in rows("moon_longitude_distance")]
LATITUDE = [whole(row) for row in rows("moon_latitude")]
UNIT = 10 ** 8
ARGUMENTS = {row[0]: [Fraction(c, UNIT) for c in whole(row[1:4])] + [Fraction(s, k) for s, k in (whole(row[4:6]), whole(row[6:8]))]
             for row in rows("polynomials") if row[0] in ("Lp", "D", "M", "Mp", "F")}
ADDED = {"A1": ["119.75", "131.849"], "A2": ["53.09", "479264.290"], "A3": ["313.45", "481266.484"]}


class Moon:
    def __init__(self, n):
        self.T = T = Fraction(n, 3_155_760_000_000)
        polynomials = {**ARGUMENTS, **{name: [Fraction(c) for c in printed] for name, printed in ADDED.items()}}
        self.degrees = {name: sum(c * T ** i for i, c in enumerate(cs)) for name, cs in polynomials.items()}
        self.E = 1 - Fraction("0.002516") * T - Fraction("0.0000074") * T ** 2

    def term(self, row, number, wave):
        """a row's number, l, r or b, times E at m ±1 and E² at m ±2, times sine or cosine of its angle"""
        angle = sum(multiple * self.degrees[name] for multiple, name in zip(row, ("D", "M", "Mp", "F")))
        return number * self.E ** abs(row[1]) * wave(angle)

    def by_sine(self, row):
        return self.term(row, row[4], sine)

    def by_cosine(self, row):
        return self.term(row, row[5], cosine)

    def longitude(self):
        d = self.degrees
        additions = 3958 * sine(d["A1"]) + 1962 * sine(d["Lp"] - d["F"]) + 318 * sine(d["A2"])
        return d["Lp"] + (sum(map(self.by_sine, LONGITUDE_DISTANCE)) + additions) / 10 ** 6

    def latitude(self):
        d = self.degrees
        additions = (-2235 * sine(d["Lp"]) + 382 * sine(d["A3"]) + 175 * sine(d["A1"] - d["F"]) + 175 * sine(d["A1"] + d["F"])
                     + 127 * sine(d["Lp"] - d["Mp"]) - 115 * sine(d["Lp"] + d["Mp"]))
        return (sum(map(self.by_sine, LATITUDE)) + additions) / 10 ** 6

    def metres(self):
        return 385_000_560 + sum(map(self.by_cosine, LONGITUDE_DISTANCE))


# ---- Exact sums: the Sun
SUN = [(row[0], whole(row[1:])) for row in rows("sun")]


def group(name):
    return [row for group, row in SUN if group == name]


class Sun:
    def __init__(self, n):
        self.tau = Fraction(n, 31_557_600_000_000)

    def ray(self, row):
        a, b, c = row
        return a * cosine(in_degrees(Fraction(b, UNIT) + Fraction(c, UNIT) * self.tau))

    def sum(self, letter):
        names = sorted({name for name, _ in SUN if name.startswith(letter)})
        return sum(self.tau ** int(name[1:]) * sum(map(self.ray, group(name))) for name in names) / UNIT


# ---- the cases, in the order of the lists
def cases():
    yield "in_degrees (nat 1)", in_degrees(1)
    yield "sin° (nat 180)", sine(Fraction(180))
    yield "cos° (nat 180)", cosine(Fraction(180))
    for mark, n in INSTANTS.items():
        moon, sun = Moon(n), Sun(n)
        for name in ("Lp", "D", "M", "Mp", "F", "A1", "A2", "A3"):
            letter = name.replace("p", "'")
            yield f"degrees T{mark} {letter}", moon.degrees[name]
        yield f"E T{mark}", moon.E
        for i in (0, 4, 7, 33, 34):  # m 0, 1, -1, 2, -2
            yield f"sine_term T{mark} (row longitude_distance_terms {i})", moon.by_sine(LONGITUDE_DISTANCE[i])
        for i in (0, 7, 42):  # m 0, -1, 2
            yield f"cosine_term T{mark} (row longitude_distance_terms {i})", moon.by_cosine(LONGITUDE_DISTANCE[i])
        yield f"sine_term T{mark} (row latitude_terms 10)", moon.by_sine(LATITUDE[10])  # m -1
        yield f"ray τ{mark} (row L0 1)", sun.ray(group("L0")[1])
        yield f"ray τ{mark} (row R1 0)", sun.ray(group("R1")[0])
    moon, sun = Moon(INSTANTS["₁"]), Sun(INSTANTS["₁"])
    yield "moon_longitude T₁", moon.longitude()
    yield "moon_latitude T₁", moon.latitude()
    yield "moon_metres T₁", moon.metres()
    for letter in "LBR":
        yield f"sun_{letter} τ₁", sun.sum(letter)


def nearest(value):
    """the whole number nearest to 10^30 times a value; 01 judges it within a half, so a tie would have two"""
    scaled = SCALE * value
    assert scaled % 1 != Fraction(1, 2)
    return floor(scaled + Fraction(1, 2))


def written(number):
    """as antt writes it; up to four digits stay together"""
    digits = f"{abs(number):_}" if abs(number) > 9999 else str(abs(number))
    return f"{'minus' if number < 0 else 'pos'} {digits}"


CASE = re.compile(r"^ +(\S.*?) ≈ (pos|minus) ([\d_]+) e-30\b", re.M)


def main():
    worked = [(name, nearest(value)) for name, value in cases()]
    if "--print" in sys.argv[1:]:
        for name, number in worked:
            print(f"    {name} ≈ {written(number)} e-30")
        return 0
    (path,) = ROOT.glob("crates/*/specs/ExactCases.antt")
    text = path.read_text()
    instants = [(name, number) for name, number in re.findall(r"^n(.) = ((?:pos|minus) [\d_]+)$", text, re.M)]
    stands = [(name, int(digits) * (-1 if sign == "minus" else 1)) for name, sign, digits in CASE.findall(text)]
    faults = 0
    if instants != [(mark, written(n)) for mark, n in INSTANTS.items()]:
        print(f"{path.name} has the instants {instants}")
        faults += 1
    if [name for name, _ in stands] != [name for name, _ in worked]:
        print(f"{path.name} has the cases {[name for name, _ in stands]}, and not {[name for name, _ in worked]}")
        faults += 1
    for (name, number), (_, right) in zip(stands, worked):
        if number != right:
            print(f"{name}: {number} stands in {path.name}, and {right} was worked")
            faults += 1
    print(f"exact cases: {len(worked)} worked, {faults} differences")
    return 1 if faults else 0


if __name__ == "__main__":
    sys.exit(main())
