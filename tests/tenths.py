#!/usr/bin/env python3
"""Every vector from before 02's Item 8, when time was counted in tenths of a second, stands in tests/vectors and tests/outside with its times
multiplied by 100 and its answer untouched; the tests that read these files run each of them.

    python3 tests/tenths.py             divide every time by 100 and compare each file's digest with that of the old one; exit 1 on a difference
    python3 tests/tenths.py --old DIR   print the digests of the old files: DIR has what `git archive a22c20f tests | tar x -C DIR` puts there

A digest is of the lines alone, without comments and the head of a csv file. Zeros before a number of a sheet do not count, since the longer line has fewer of them;
the least and the greatest number of 64 bits, which can only be refused, stay as they are. Air that is carried over from old strips has its old word, standard, back.
A later item that changes a vector takes its file out of the list below.
"""
import hashlib
import re
import sys
from pathlib import Path

ROOT = Path(__file__).resolve().parent.parent

OLD = {
    "vectors/days.txt": "ec9fac3f099acaec51af59264f006633d71e99644f343bfbba303e2bdc12f1ae",
    "vectors/eclipses.txt": "6a99f50e54c43d6e801e03c748208d1a813314f3c02bff3b5e46a11d4bbe6148",
    "vectors/horizon.txt": "8377bd09963a4856f3ac57328086df1cc739ee5304a86450d3487c4e43b1c5c6",
    "vectors/leaves.txt": "acd2af72f0d8d41e5301f8f8ab46471c2ba0243c19825a5135abbdb0531611a2",
    "vectors/overhead.txt": "a324f0b2d77afb8054ca8d8111d1526cd1002e20cab698ed665e7bef3c24db30",
    "vectors/places.txt": "6a2b33f304ee60e6ce1131502059fb978226a76fc3b5e003eba54a7cc184596f",
    "vectors/proposals.txt": "3ff8b6920032cb6561233d3c44b99ad3680d02b8a6497124e1404b3eebc380a0",
    "outside/places.csv": "0d3188611349a68a3b095095c5926fc9020bec219bb6d7e372dc8976a30f182d",
    "outside/riseset.csv": "89bbab64c92b38ba5f27aa11a56a67e38b2fc3c18aa2061b34959c2a501fbc66",
    "outside/table4.txt": "82820c55e474fb56a1c0a17d0799251e71cb42c22ea4e8a1ae6c48e5f5ad9719",
}

# Which words of a line are times, by the line's first word, counted from 0.
CLOCK = range(7, 10)  # BODY YEAR MONTH DAY HOUR MINUTE SECOND, and then
DATE = range(5, 7)  # WORD BODY YEAR MONTH DAY, and then
TIMES = {"sun": CLOCK, "moon": CLOCK, "eclipse": CLOCK, "batch": range(8, 11), "day": DATE, "judge": DATE, "plan": DATE, "sums": range(1, 2)}

NOW, THEN = " carried-over |", " standard |"  # 02, Item 9

NUMBER = re.compile(r"-?\d+")
EXTREMES = (-(2 ** 63), 2 ** 63 - 1)


class Unit:
    """so many units of the file's time to a tenth of a second"""

    def __init__(self, units):
        self.units = units

    def tenths(self, word):
        number = int(word)
        if number in EXTREMES:
            return word
        if number % self.units:
            sys.exit(f"{word} is no whole tenth of a second")
        return str(number // self.units)

    def words(self, text, times):
        """with the words at these places in tenths, where they are numbers"""
        words = text.split(" ")
        return " ".join(self.tenths(word) if i in times and NUMBER.fullmatch(word) else word for i, word in enumerate(words))

    def bare(self, line):
        """without zeros before a number"""
        return " ".join(str(int(word)) if NUMBER.fullmatch(word) else word for word in line.split(" "))

    def sheet(self, text):
        """INPUT | OUTPUT, both bytes in hex: the seventh to ninth number of a line, and TT of an answer"""
        asked, answer = (bytes.fromhex(part).decode("latin-1") for part in text.split("|"))
        lines = "\n".join(self.bare(self.words(line, range(6, 9))) for line in asked.split("\n"))
        answers = "\n".join(self.words(line, range(0, 1)) for line in answer.split("\n"))
        return f"sheet {lines.encode('latin-1').hex()} | {answers.encode('latin-1').hex()}"

    def line(self, line):
        kind, _, rest = line.partition(" ")
        if kind == "sheet":
            return self.sheet(rest)
        if kind == "batch":
            asked, answer = line.split(" | ")
            request, offsets = asked.split(" ; ")
            return f"{self.words(request, TIMES[kind])} ; {self.words(offsets, range(len(offsets)))} | {answer}"
        if kind.isdigit():  # Table 4
            return self.words(line, range(6, 9))
        return self.words(line, TIMES.get(kind, ()))

    def row(self, line, times):
        cells = line.split(",")
        return ",".join(self.tenths(cell) if i in times else cell for i, cell in enumerate(cells))

    def digest(self, path):
        lines = path.read_text().splitlines()
        if path.suffix == ".csv":
            head = lines[0].split(",")
            times = [i for i, name in enumerate(head) if name.endswith(("_ms", "tenth", "_tenths"))]
            lines = [self.row(line, times) for line in lines[1:]]
        else:
            lines = [self.line(line.replace(NOW, THEN)) for line in lines if not line.startswith("#")]
        return len(lines), hashlib.sha256("\n".join(lines).encode()).hexdigest()


def main():
    if sys.argv[1:2] == ["--old"]:
        for name in OLD:
            print(f'    "{name}": "{Unit(1).digest(Path(sys.argv[2]) / "tests" / name)[1]}",')
        return 0
    vectors, faults = 0, 0
    for name, old in OLD.items():
        count, digest = Unit(100).digest(ROOT / "tests" / name)
        vectors += count
        if digest != old:
            print(f"tests/{name}, its times divided by 100, is not what it was before Item 8")
            faults += 1
    print(f"tenths: {vectors} vectors from before Item 8 stand in {len(OLD)} files, {faults} of these changed")
    return 1 if faults else 0


if __name__ == "__main__":
    sys.exit(main())
