#!/usr/bin/env python3
"""Writes the drawings of FORMAT.md, node.svg and entry.svg, beside this script."""

from pathlib import Path

WIDTH = 800
GREY = "#d0d0d0"


def number(x):
    """A coordinate, without needless digits."""
    return f"{x:.2f}".rstrip("0").rstrip(".")


def rect(x, y, w, h, fill="white", stroke="black"):
    return (
        f'<rect x="{number(x)}" y="{number(y)}" width="{number(w)}" height="{number(h)}"'
        f' fill="{fill}" stroke="{stroke}"/>'
    )


def line(x1, y1, x2, y2, extra=""):
    return (
        f'<line x1="{number(x1)}" y1="{number(y1)}" x2="{number(x2)}" y2="{number(y2)}"'
        f' stroke="black"{extra}/>'
    )


def text(x, y, words, anchor="middle", size=14, extra=""):
    return (
        f'<text x="{number(x)}" y="{number(y)}" text-anchor="{anchor}"'
        f' font-size="{size}"{extra}>{words}</text>'
    )


def save(name, title, height, parts):
    head = [
        f'<svg xmlns="http://www.w3.org/2000/svg" width="{WIDTH}" height="{height}"'
        f' viewBox="0 0 {WIDTH} {height}" font-family="DejaVu Sans, Verdana, Arial, sans-serif">',
        f"<title>{title}</title>",
        f'<rect width="{WIDTH}" height="{height}" fill="white"/>',
    ]
    path = Path(__file__).resolve().parent / name
    path.write_text("\n".join(head + parts + ["</svg>", ""]), encoding="utf-8", newline="\n")


def children(i):
    """The children that counter i of a node counts: from the first number up to, not including, the second."""
    if i < 8:
        return 0, 8 * i
    c = i - 8
    return 8 * (c // 8), c + 1


def node():
    left, cell, chosen = 140, 10, 19
    parts = []

    def at(child):
        return left + cell * child

    # The counters as they stand.
    parts.append(text(16, 24, "The 72 counters of a node, by their places 0 to 71", "start", 15))
    wide = (WIDTH - 32) / 9
    for b in range(9):
        x = 16 + wide * b
        parts.append(text(x + 2, 48, str(8 * b), "start"))
        parts.append(rect(x, 54, wide, 44, GREY if b == 0 else "white"))
        parts.append(text(x + wide / 2, 72, "summaries" if b == 0 else "keys"))
        first = 8 * max(b - 1, 0)
        parts.append(text(x + wide / 2, 90, f"{first} to {first + 7}"))
    parts.append(text(WIDTH - 18, 48, "71", "end"))

    # The children.
    top, bottom = 168, 604
    parts.append(text(16, 132, "The 64 children, and which of them each counter counts", "start", 15))
    for g in range(9):
        parts.append(line(at(8 * g), top, at(8 * g), bottom, ' stroke-dasharray="1 4"'))
    parts.append(text(left - 10, top + 15, "children", "end"))
    for c in range(64):
        parts.append(rect(at(c), top, cell, 20, "black" if c == chosen else "white"))
    for g in range(8):
        parts.append(text(at(8 * g) + cell / 2, top - 7, str(8 * g)))
    parts.append(text(at(chosen) + cell / 2, top - 7, str(chosen)))
    parts.append(text(at(63) + cell / 2, top - 7, "63"))

    def bar(i, y):
        a, b = children(i)
        if a < b:
            parts.append(rect(at(a), y, cell * (b - a), 13, "black" if a <= chosen < b else GREY))

    # The keys: in a line those with the same remainder by 8.
    for r in range(8):
        y = 206 + 24 * r
        parts.append(text(left - 10, y + 12, f"keys {r}, {r + 8} .. {r + 56}", "end"))
        for g in range(8):
            bar(8 + 8 * g + r, y)

    # The summaries.
    for g in range(8):
        y = 412 + 24 * g
        parts.append(text(left - 10, y + 12, f"summary {g}", "end"))
        bar(g, y)
    parts.append(rect(at(0) + 4, 410, 134, 19, "white", "none"))
    parts.append(text(at(0) + 6, 424, "no child: always 0", "start"))

    # Those that count the chosen child.
    parts.append(rect(16, 626, 30, 13, "black"))
    parts.append(text(56, 638, f"counts child {chosen}: keys {chosen} to 23 and summaries 3 to 7,", "start"))
    parts.append(
        text(56, 658, f"15 − ({chosen} mod 8) − ({chosen} div 8) = 15 − 3 − 2 = 10 counters", "start")
    )
    save("node.svg", "A node: 8 summaries and 64 keys, and the children that each counts", 674, parts)


def field(b):
    """The name of the field of an entry that bit b lies in."""
    return "before" if b < 44 else f"c{(b - 44) // 12 + 1}"


def entry():
    left, bit = 80, 11
    parts = []

    def at(b):
        return left + bit * (b % 64)

    def word(half, y):
        """One 64-bit word: its fields, the bits where they start, and its bytes."""
        parts.append(text(16, y + 20, ("low", "high")[half], "start"))
        parts.append(text(16, y + 38, "word", "start"))
        a = 64 * half
        while a < 64 * half + 64:
            e = a
            while e < 64 * half + 64 and field(e) == field(a):
                e += 1
            parts.append(rect(at(a), y, bit * (e - a), 52, GREY if field(a) == "c2" else "white"))
            middle = at(a) + bit * (e - a) / 2
            parts.append(text(middle, y + 23, field(a), size=16))
            if e - a > 4:
                parts.append(text(middle, y + 43, f"{e - a} bits"))
            else:
                parts.append(text(middle, y + 43, str(e - a)))
            parts.append(text(at(a), y - 7, str(a)))
            a = e
        parts.append(text(left + 64 * bit, y - 7, str(64 * half + 64)))
        for b in range(8):
            parts.append(line(at(8 * b), y + 52, at(8 * b), y + 60))
            parts.append(text(at(8 * b) + 4 * bit, y + 70, f"byte {8 * half + b}"))
        parts.append(line(left + 64 * bit, y + 52, left + 64 * bit, y + 60))

    parts.append(text(16, 24, "An entry: 128 bits, bit 0 on the left; the numbers are those of bits", "start", 15))
    word(0, 62)
    word(1, 206)

    # Field c2 goes on in the high word.
    x1, x2, y = at(60), at(66), 156
    parts.append(line(x1, 138, x1, y))
    parts.append(line(x1, y, x2, y))
    parts.append(line(x2, y, x2, 206))
    parts.append(
        f'<path d="M {number(x2 - 5)} 196 L {number(x2)} 206 L {number(x2 + 5)} 196 Z" fill="black"/>'
    )
    parts.append(
        text((x1 + x2) / 2, y + 20, "c2 lies across bit 64: its low 8 bits end the low word, its high 4 start the high word")
    )

    # The same bytes as a dump prints them.
    value = sum(2 << (44 + 12 * j) for j in range(7))
    parts.append(
        text(16, 318, "As a dump prints it, high digit of each byte first: before = 0, c1 to c7 = 2", "start", 15)
    )
    parts.append(text(16, 346, "byte", "start"))
    parts.append(text(16, 372, "digits", "start"))
    parts.append(text(16, 401, "field", "start"))
    mono = ' font-family="DejaVu Sans Mono, Courier New, monospace"'
    for b in range(16):
        x = left + 4 * bit * b
        parts.append(text(x + 2 * bit, 346, str(b)))
        for place, low in ((0, 8 * b + 4), (1, 8 * b)):
            cell = x + 2 * bit * place
            name = field(low)
            parts.append(rect(cell, 352, 2 * bit, 30, GREY if name == "c2" else "white", "none"))
            parts.append(text(cell + bit, 373, f"{value >> low & 15:X}", size=18, extra=mono))
            parts.append(text(cell + bit, 401, "b" if name == "before" else name[1]))
        parts.append(rect(x, 352, 4 * bit, 30, "none"))
    parts.append(text(left, 426, "b: before; 1 to 7: c1 to c7. A later byte, or a byte's first digit, weighs more.", "start"))
    save("entry.svg", "An entry of an image: its fields over two 64-bit words", 442, parts)


if __name__ == "__main__":
    node()
    entry()
