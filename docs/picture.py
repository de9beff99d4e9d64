"""Draws a listing as SVG: picture.py SHEET LISTING > SVG. The listing has no label text; it is read from the sheet.
The arrows drawn and left out, and the label lines drawn, must be as many as the listing's last line counts."""
import sys

sheet = open(sys.argv[1], "rb").read()
listing = open(sys.argv[2]).read().splitlines()


def word(at):
    return sheet[at] | sheet[at + 1] << 8


def chain(first):
    while first:
        yield first
        first = word(16 * first + 2)


def text(line):
    pieces = (sheet[16 * k + 4:16 * k + 4 + sheet[16 * k + 1]] for k in chain(word(16 * line + 4)))
    return b"".join(pieces).decode()


flags = [sheet[16 * k + 1] for k in chain(word(4))]
labels = [[text(line) for line in chain(word(16 * k + 8))] for k in chain(word(6))]


def escaped(s):
    return s.replace("&", "&amp;").replace("<", "&lt;")


# straight arrows, arcs and loops by the letter of their curve, and the lines of their labels
drawn = {"L": 0, "Q": 0, "C": 0}
lines = 0
totals = None

for line in listing:
    what, *rest = line.split(" ")
    if what == "size":
        w, h = rest
        print(f'<svg xmlns="http://www.w3.org/2000/svg" width="{w}" height="{h}" viewBox="0 0 {w} {h}" font-family="monospace" font-size="12">')
        print(f'<rect width="{w}" height="{h}" fill="white"/>')
        continue
    if what == "total":
        totals = [int(n) for n in rest]
        continue
    k = int(rest[0])
    if what == "state":
        x, y = rest[1:]
        print(f'<circle cx="{x}" cy="{y}" r="22" fill="none" stroke="black"/>')
        if flags[k] & 2:
            print(f'<circle cx="{x}" cy="{y}" r="18" fill="none" stroke="black"/>')
        print(f'<text x="{x}" y="{y}" text-anchor="middle" dominant-baseline="central">{k}</text>')
        if flags[k] & 1:
            print(f'<path d="M {float(x) - 50:g} {y} L {float(x) - 22:g} {y}" stroke="black"/>')
    elif what == "edge":
        drawn[rest[4]] += 1
        print(f'<path d="{" ".join(rest[1:])}" fill="none" stroke="black"/>')
    elif what in ("head", "start"):
        print(f'<path d="{" ".join(rest[1:])}"/>')
    elif what == "label":
        x, y, anchor = rest[1:]
        lines += len(labels[k])
        for i, t in enumerate(labels[k]):
            print(f'<text x="{x}" y="{float(y) + 15 * i + 11:g}" text-anchor="{anchor}">{escaped(t)}</text>')
print("</svg>")
counted = [*drawn.values(), len(labels) - sum(drawn.values()), lines]
if counted != totals:
    sys.exit(f"drawn are {counted}, and the last line says {totals}")
