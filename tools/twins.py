"""Lists runs of lines that stand twice in the code, but for names and numbers.

    python3 tools/twins.py [FEWEST]

reads crates/*/src/*.rt below the current folder, without comments, imports and blank lines, and prints each longest run
of at least FEWEST (6) lines that has the same shape in two places: the two places and the length. A row is a place to
look, not a verdict.
"""
import glob
import re
import sys

NAME = re.compile(r"[A-Za-z_][A-Za-z0-9_]*|\d[\d_]*")
KEPT = {"fn", "pub", "impl", "struct", "enum", "trait", "match", "if", "else", "for", "while", "return", "let", "mut"}


def shape(line):
    return NAME.sub(lambda m: m.group(0) if m.group(0) in KEPT else "x", line)


def code_lines(path):
    found = []
    for number, line in enumerate(open(path, encoding="utf-8"), 1):
        text = line.strip()
        if text and not text.startswith(("//", "use ", "ghost use ", "mod ", "pub use ")):
            found.append((path, number, shape(text)))
    return found


def runs(lines, fewest):
    """The longest runs of equal shapes, as two positions in `lines` and a length."""
    starts = {}
    for i in range(len(lines) - fewest + 1):
        window = lines[i : i + fewest]
        if window[0][0] == window[-1][0]:
            starts.setdefault(tuple(line[2] for line in window), []).append(i)
    pairs = {(a, b) for places in starts.values() for a in places for b in places if b >= a + fewest}
    for a, b in sorted(pairs):
        if (a - 1, b - 1) not in pairs:
            extra = 0
            while (a + extra + 1, b + extra + 1) in pairs:
                extra += 1
            yield a, b, fewest + extra


def main():
    fewest = int(sys.argv[1]) if len(sys.argv) > 1 else 6
    lines = [line for path in sorted(glob.glob("crates/*/src/*.rt")) for line in code_lines(path)]
    for a, b, length in runs(lines, fewest):
        print(f"{lines[a][0]}:{lines[a][1]} ~ {lines[b][0]}:{lines[b][1]}, {length} lines")


main()
