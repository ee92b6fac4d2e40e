#!/usr/bin/env -S python3 -B
"""Fills the tables of BENCHMARKS.md and draws its plots, from benchmarks.tsv, which tests/bench/run writes, freeze.tsv,
which tests/bench/freeze writes, and total.tsv, which tests/bench/total writes.

A table stands between the lines `<!-- table NAME -->` and `<!-- end -->`.
"""

import math
import re
from pathlib import Path

from drawings import WIDTH, line, number, save, text

HERE = Path(__file__).resolve().parent
POWERS = ("20", "24", "27")
SHARES = ("1/64", "32/64", "63/64")
CALLS = (
    "count", "find 1", "find 0", "turn", "add", "next", "run", "check",
    "freeze", "inspect", "row count", "row find",
)  # fmt: skip
# The calls on two strips, which were measured with half ones alone.
PAIRS = (
    "pair both", "pair either", "pair only first", "pair differ", "pair find", "pair find, last", "pair span",
)  # fmt: skip
WAITING = ("waiting count", "waiting find", "waiting find, last", "waiting find, open")
TWO_STRIPS = PAIRS + WAITING
# The searches for a burst, by share of ones and name, with how the ones lie: those that pass most words, and those that
# try the starts in most.
BURSTS = {
    ("1/64", "burst, 60 of 1,000"): "at random",
    ("32/64", "burst, 600 of 1,000"): "at random",
}
WORST = {
    ("32/64", "burst, 501 of 1,000"): "alternating",
    ("32/64", "burst, 33 of 64"): "alternating",
    ("32/64", "burst, 32,769 of 65,536"): "alternating",
    ("20/64", "burst, 33 of 64"): "thinned",
}
# The most counts of ones that a search for a burst is to take at 2^24, and its least speed over a sliding count's.
BURST_COUNTS, BURST_SPEED = 5, 8
# The merges, with how many of the labels stand in both images; the bits of their rows, and those of the images of about
# 32 MiB; and how many times two inspections and memcpy a merge of these is to take at most.
MERGES = {"merge, none in both": "none", "merge, half in both": "half", "merge, all in both": "all"}
MERGE_POWERS, MERGE_LONG, MERGE_MOST = ("6", "18", "23"), "23", 1.5
COLUMNS = ("library", "C++", "C++, checked", "scan", "scan, popcnt", "sdsl", "CRoaring")
PAIR, NOISE, CHECKED = "library / C++", "C++ again / C++", "library / C++, checked"
COUNTS, SLIDING = "library / count of ones", "sliding count / library"
CHANGE, CHANGE_NOISE = "library / before", "before again / before"
PARTS = "library / two inspections + memcpy"
# A ratio that differs more than this from the quotient of the two times is marked.
TENTH = 0.1
# The table that the page opens with: a name, the calls that it stands for, the columns that their speed is held against.
SUMMARY = (
    ("count", ("count",), ("CRoaring", "sdsl")),
    ("find", ("find 1", "find 0"), ("CRoaring", "sdsl", "scan")),
    ("turn", ("turn",), ("CRoaring",)),
    ("add", ("add",), ("CRoaring",)),
    ("next", ("next",), ("CRoaring", "scan")),
    ("run", ("run",), ()),
    ("freeze", ("freeze",), ("memcpy",)),
    ("inspect", ("inspect",), ()),
    ("row count", ("row count",), ("scan",)),
    ("row find", ("row find",), ()),
    ("pair count", ("pair differ", "pair both", "pair either", "pair only first"), ()),
    ("pair find", ("pair find", "pair find, last"), ()),
    ("pair span", ("pair span",), ()),
    ("waiting count", ("waiting count",), ("two passes",)),
    ("waiting find", WAITING[1:], ()),
    ("burst", ("burst, 600 of 1,000",), ("count of ones", "sliding count")),
)
# The calls that are to be no slower than the C++ version.
HELD = ("count", "find 1", "find 0", "turn", "add", "run", *PAIRS[:6], *WAITING)
# What callgrind counted under these names.
FUNCTIONS = {
    "count": ("strip_rank", "tree_rank"),
    "count, C++ checked": ("strip_rank", "checked_rank"),
    "find 1": ("strip_select", "tree_select"),
    "find 1, C++ checked": ("strip_select", "checked_select"),
    "turn": ("strip_flip", "tree_flip"),
    "turn, C++ checked": ("strip_flip", "checked_flip"),
    "add": ("strip_push", "tree_push"),
    "add, C++ checked": ("strip_push", "checked_push"),
    "next": ("strip_successor", "tree_successor"),
    "run": ("strip_fill", "tree_fill"),
    "check": ("strip_verify", "tree_verify"),
    "freeze": ("image_freeze", "row_freeze"),
    "inspect": ("image_inspect", "row_inspect"),
    "row count": ("image_row_rank", "row_rank"),
    "row find": ("image_row_select", "row_select"),
    "pair both": ("strip_pair_both", "pair_both"),
    "pair either": ("strip_pair_either", "pair_either"),
    "pair only first": ("strip_pair_only_first", "pair_only_first"),
    "pair differ": ("strip_pair_differ", "pair_differ"),
    "pair find": ("strip_pair_find", "pair_find"),
    "pair span": ("strip_pair_span", "pair_span"),
    "waiting count": ("strip_waiting_count", "waiting_count"),
    "waiting find": ("strip_waiting_find", "waiting_find"),
    "burst": ("strip_burst", "burst_start"),
}

# The least share of memcpy's speed that freeze is to reach at 2^24, and its name.
FREEZE_AIM, FREEZE_SHARE = 0.75, "three quarters of memcpy"
# The functions of tests/bench/freeze.cpp, and what they do.
HAND = {
    "hand_copy": "`hand_copy`: stores the words, counts nothing",
    "hand_count": "`hand_count`: counts the ones of each block, stores nothing",
    "hand_freeze": "`hand_freeze`: the whole of freeze, ones counted vector by vector",
    "hand_merged": "`hand_merged`: the same, counts of three vectors merged",
    "hand_popcnt": "`hand_popcnt`: the same with popcnt, which baseline x86-64 has not",
}
# The shares of ones with which calls were measured without a total and with one, and how many times the time without it
# each may take; those that may take no more are judged by the noise too.
TOTAL_SHARES = ("32/64", "1/1024")
TOTAL_MOST = {"find 1": 1, "find 0": 1, "turn": 1.05, "add": 1.05}


class Results:
    def __init__(self, name):
        self.lines = [row.split("\t") for row in (HERE / name).read_text(encoding="utf-8").splitlines()]

    def kind(self, name):
        return [row[1:] for row in self.lines if row[0] == name]

    def three(self, kind, *key):
        """Lower quartile, median and upper quartile, or nothing."""
        for row in self.kind(kind):
            if tuple(row[:4]) == key:
                return [float(x) for x in row[4:7]]
        return None

    def time(self, power, share, call, column):
        found = self.three("time", power, share, call, column)
        return found and found[1]

    def bytes(self, power, share, what):
        return next(int(row[3]) for row in self.kind("bytes") if row[:3] == [power, share, what])

    def instructions(self, power, name):
        for row in self.kind("instructions"):
            if row[:2] == [power, name]:
                return float(row[2]), float(row[3])
        return None


def table(head, rows):
    out = ["| " + " | ".join(head) + " |", "|" + "---|" * len(head)]
    return out + ["| " + " | ".join(str(cell) for cell in row) + " |" for row in rows]


def duration(ns):
    """A time, in ns below 10 µs."""
    if ns is None:
        return ""
    if ns < 9995:
        return f"{ns:.1f}" if ns < 999.5 else f"{ns:,.0f}"
    return f"{ns / 1000:,.1f} µs"


def spread(of, key, pair):
    """A ratio with its quartiles, marked where the two times shown with it have another quotient."""
    three = of.three("ratio", *key, pair)
    if three is None:
        return ""
    over, under = (sum(of.time(*key, column) for column in side.split(" + ")) for side in pair.split(" / "))
    mark_ = "*" if pair not in (NOISE, CHANGE_NOISE) and abs(over / under / three[1] - 1) > TENTH else ""
    return f"{three[1]:.2f}{mark_} ({three[0]:.2f}–{three[2]:.2f})"


def with_note(lines):
    """The table, with a line on its marked ratios where it has any."""
    marked = sum(line.count("* (") for line in lines)
    if not marked:
        return lines
    note = "a median over the rounds, more than a tenth off the quotient of the two medians of times (\"How it was measured\" says why)"
    return lines + ["", f"\\* {note}: {marked} of the ratios above."]


def calls_table(of, power):
    rows = []
    for call in CALLS:
        for share in SHARES:
            key = power, share, call
            figures = [duration(of.time(*key, column)) for column in COLUMNS]
            ratios = [spread(of, key, pair) for pair in (PAIR, NOISE, CHECKED)]
            rows.append([call, share, *figures[:2], *ratios[:2], figures[2], ratios[2], *figures[3:]])
    head = ["call", "ones", "library", "C++", PAIR, "C++ / C++", "C++, checked", CHECKED, *COLUMNS[3:]]
    return with_note(table(head, rows))


def cells(call=None):
    return [(power, share) for power in POWERS for share in SHARES if call not in TWO_STRIPS or share == "32/64"]


def within(of, kind, power, share, call, pair):
    """Whether the library is no slower than a C++ version, but for what C++ differs from itself."""
    ratio, noise = (of.three(kind, power, share, call, name) for name in (pair, NOISE))
    return ratio[1] <= max(1, noise[2])


def verdict(met, of=9):
    """Of so many cells in which an aim is met."""
    return "met" if met == of else f"missed ({met} of {of})"


def no_slower(of, calls, kind="ratio", pair=PAIR):
    """In how many cells the calls are no slower than a C++ version, and in how many they were measured."""
    met = [within(of, kind, *cell, call, pair) for call in calls for cell in cells(call)]
    return sum(met), len(met)


def speeds(of, call, column, mine=None, shares=SHARES, powers=POWERS):
    """The library's speed over that of another column, by size and share of ones."""
    return [of.time(p, s, call, column) / of.time(p, s, mine or call, "library") for p in powers for s in shares]


def burst_aims(of):
    """The aims of the searches for a burst at 2^24: each with what was reached, whether it is met, and its form."""

    def ratios(cases, pair):
        return [of.three("ratio", "24", *case, pair)[1] for case in cases]

    return (
        (f"at most {BURST_COUNTS} counts of ones", ratios(BURSTS, COUNTS), lambda x: x <= BURST_COUNTS, "{:.2f}"),
        (f"{BURST_SPEED} times the sliding count's speed", ratios(BURSTS, SLIDING), lambda x: x >= BURST_SPEED, "{:.1f}"),
        ("at worst no slower than the sliding count", ratios(WORST, SLIDING), lambda x: x >= 1, "{:.2f}"),
    )


def aims_of(of, name, calls):
    aims = []
    if set(calls) <= set(HELD):
        aims.append("no slower than C++: " + verdict(*no_slower(of, calls)))
    if name in ("count", "find", "turn"):
        aims.append("10 times CRoaring: " + verdict(sum(x >= 10 for x in speeds(of, calls[0], "CRoaring"))))
    if name == "find":
        parts = [x for call in calls for x in speeds(of, call, "scan", powers=("24",))]
        aims.append("1/200 of the scan at 2^24: " + verdict(sum(x >= 200 for x in parts), len(parts)))
    if name == "freeze":
        parts = speeds(of, "freeze", "memcpy", powers=("24",))
        aims.append(f"{FREEZE_SHARE} at 2^24: " + verdict(sum(x >= FREEZE_AIM for x in parts), len(parts)))
    if name == "burst":
        for aim, parts, met, _ in burst_aims(of):
            aims.append(f"{aim} at 2^24: " + verdict(sum(map(met, parts)), len(parts)))
    return "; ".join(aims) or "none set"


def three_times(of, call):
    times = [of.time(power, "32/64", call, "library") for power in POWERS]
    if max(times) < 9995:
        return " / ".join(f"{x:.1f}" for x in times) + " ns"
    return " / ".join(f"{x / 1000:,.0f}" for x in times) + " µs"


def figure(x):
    """Two digits at least, and no more than it takes."""
    return f"{x:,.0f}" if x >= 9.95 else f"{x:.1f}" if x >= 0.995 else f"{x:.2f}"


def summary_table(of):
    rows = []
    for name, calls, columns in SUMMARY:
        ratios = [of.three("ratio", power, "32/64", calls[0], PAIR)[1] for power in POWERS]
        others = []
        for column in columns:
            others.append(f"{column} " + " / ".join(map(figure, speeds(of, calls[0], column, shares=("32/64",)))))
        rows.append([name, three_times(of, calls[0]), " / ".join(f"{x:.2f}" for x in ratios), "; ".join(others), aims_of(of, name, calls)])
    head = ["call", "library, at 2^20 / 2^24 / 2^27", "its time over C++", "its speed over that of", "aims"]
    return table(head, rows)


def aims_table(of):
    kinds = [(level, kind, pair) for pair in (PAIR, CHECKED) for level, kind in (("-O3", "ratio"), ("-O2", "ratio-O2"))]
    rows = []
    for call in HELD:
        row = [call]
        for _, kind, pair in kinds:
            if of.three(kind, "20", "32/64", call, pair) is None:
                row.append("")
                continue
            ratios = [of.three(kind, *cell, call, pair)[1] for cell in cells(call)]
            row.append(f"{min(ratios):.2f} to {max(ratios):.2f}: " + verdict(*no_slower(of, [call], kind, pair)))
        rows.append(row)
    return table(["no slower than"] + [f"{pair.removeprefix('library / ')}, {level}" for level, _, pair in kinds], rows)


def others_table(of):
    rows = []

    def row(aim, power, figures, met, form):
        rows.append([aim, f"2^{power}", ", ".join(form.format(x) for x in figures), verdict(sum(map(met, figures)), len(figures))])

    for call in ("count", "find 1", "turn", "turn by flip_inplace"):
        for power in POWERS:
            mine = call.removesuffix(" by flip_inplace")
            row(f"{call}: 10 times CRoaring's speed", power, speeds(of, call, "CRoaring", mine, powers=(power,)), lambda x: x >= 10, "{:.1f}")
    for call in ("find 1", "find 0"):
        for column in ("scan", "scan, popcnt"):
            row(f"{call}: 1/200 of the {column}", "24", speeds(of, call, column, powers=("24",)), lambda x: x >= 200, "1/{:.0f}")
    row(f"freeze: {FREEZE_SHARE}'s speed", "24", speeds(of, "freeze", "memcpy", powers=("24",)), lambda x: x >= FREEZE_AIM, "{:.2f}")
    for aim, figures, met, form in burst_aims(of):
        row(f"burst: {aim}", "24", figures, met, form)
    parts = [of.three("ratio", MERGE_LONG, "32/64", call, PARTS)[1] for call in MERGES]
    row(f"merge: at most {MERGE_MOST} times two inspections + memcpy", MERGE_LONG, parts, lambda x: x <= MERGE_MOST, "{:.2f}")
    return table(["aim", "bits", "reached, by ones 1/64, 32/64, 63/64", ""], rows)


def two_strips_table(of, calls, others=()):
    """Calls on two strips, beside C++, and beside other calls of the library with the same answers."""
    rows = []
    for power in POWERS:
        for call in calls:
            key = power, "32/64", call
            low, middle, high = of.three("ratio-O2", *key, PAIR)
            times = [duration(of.time(*key, column)) for column in COLUMNS[:2]]
            row = [f"2^{power}", call, *times, *(spread(of, key, pair) for pair in (PAIR, NOISE)), f"{middle:.2f} ({low:.2f}–{high:.2f})"]
            for column in others:
                row += [duration(of.time(*key, column)), spread(of, key, f"library / {column}")]
            rows.append(row)
    head = ["bits", "call", "library", "C++", PAIR, "C++ / C++", "library / C++, -O2"]
    return with_note(table(head + [x for column in others for x in (column, f"library / {column}")], rows))


def bursts_table(of):
    """The searches for a burst, beside C++ and beside counts over the same words."""
    rows = []
    for power in POWERS:
        for (share, call), words in (BURSTS | WORST).items():
            key = power, share, call
            if of.three("time", *key, "library") is None:
                continue
            times = [duration(of.time(*key, column)) for column in (*COLUMNS[:2], "count of ones", "sliding count")]
            ratios = [spread(of, key, pair) for pair in (PAIR, NOISE, COUNTS, SLIDING)]
            window = call.removeprefix("burst, ")
            rows.append([f"2^{power}", window, f"{share}, {words}", *times[:2], *ratios[:2], times[2], ratios[2], times[3], ratios[3]])
    head = ["bits", "m of w", "ones", "library", "C++", PAIR, "C++ / C++"]
    return with_note(table(head + ["count of ones", COUNTS, "sliding count", SLIDING], rows))


def size(bytes_):
    return f"{bytes_ / 1024:.0f} KiB" if bytes_ < 1 << 20 else f"{bytes_ / (1 << 20):.1f} MiB"


def merges_table(of):
    """Merges of two images, beside inspections of both and memcpy of the result."""
    rows = []
    for power in MERGE_POWERS:
        for call, both in MERGES.items():
            key = power, "32/64", call
            sizes = [size(of.bytes(power, "32/64", f"{call}, {what}")) for what in ("an image", "the result")]
            times = [duration(of.time(*key, column)) for column in ("library", "two inspections", "memcpy")]
            rows.append([f"2^{power}", both, *sizes, *times, spread(of, key, PARTS)])
    head = ["a row's bits", "labels in both", "each image", "result", "library", "two inspections", "memcpy", PARTS]
    return with_note(table(head, rows))


def freeze_table(of):
    rows = []
    for power, share in cells():
        times = [of.time(power, share, "freeze", column) for column in ("library", "C++", "memcpy")]
        speed = (1 << int(power)) / 8 / times[0]
        rows.append([f"2^{power}", share, *map(duration, times), f"{times[2] / times[0]:.2f}", f"{speed:.1f}"])
    return table(["bits", "ones", "library", "C++", "memcpy", "memcpy / library", "library, GB/s"], rows)


def micros(of, kind, *key):
    """Three times in µs, the middle one first."""
    low, middle, high = (f"{x / 1000:,.1f}" if x >= 9995 else f"{x / 1000:.2f}" for x in of.three(kind, *key))
    return f"{middle} ({low}–{high})"


def before_table(of):
    """Freeze before and after a change, and the cells in which an aim is met."""
    rows = []
    for cell in cells():
        key = *cell, "freeze"
        times = [micros(of, "time", *key, column) for column in ("before", "library", "memcpy")]
        ratios = [spread(of, key, pair) for pair in ("library / before", "memcpy / before", "memcpy / library")]
        rows.append([f"2^{cell[0]}", cell[1], *times[:2], ratios[0], times[2], *ratios[1:]])
    head = ["bits", "ones", "before, µs", "library, µs", "library / before", "memcpy, µs", "before's speed over memcpy's", "library's speed over memcpy's"]
    reached = [of.three("ratio", "24", share, "freeze", "memcpy / library")[1] for share in SHARES]
    aim = verdict(sum(x >= FREEZE_AIM for x in reached), len(reached))
    return with_note(table(head, rows)) + ["", f"Aim: {FREEZE_SHARE}'s speed at 2^24: {aim}."]


def hand_table(of):
    """Freeze by hand and its parts, half ones."""
    rows = []
    for column in ("memcpy", "library", *HAND):
        row = [HAND.get(column, column)]
        for power in POWERS:
            key = power, "32/64", "freeze"
            measured = of.three("time", *key, column)
            row += [micros(of, "time", *key, column), spread(of, key, f"memcpy / {column}")] if measured else ["", ""]
        rows.append(row)
    return with_note(table([""] + [f"2^{power}: {x}" for power in POWERS for x in ("µs", "speed over memcpy's")], rows))


def places_table(of):
    """Freeze from places of the stack that are spread over a page."""
    rows = [[column] + [micros(of, "place", power, "32/64", "freeze", column) for power in POWERS] for column in ("before", "library")]
    return table(["quickest call at a place, µs"] + [f"2^{power}" for power in POWERS], rows)


def short_table(of):
    """Freeze of short strips before and after a change."""
    rows = []
    for length in dict.fromkeys(row[0] for row in of.kind("short")):
        key = length, "32/64", "freeze"
        (a, b, c), (d, e, f), (low, middle, high) = (of.three("short", *key, x) for x in ("before", "library", "library / before"))
        rows.append([f"{int(length):,}", f"{b:.1f} ({a:.1f}–{c:.1f})", f"{e:.1f} ({d:.1f}–{f:.1f})", f"{middle:.2f} ({low:.2f}–{high:.2f})"])
    return table(["length", "before, ns", "library, ns", "library / before"], rows)


def total_table(of):
    """Find, turn and add without a total and with one."""
    rows = []
    for key in ((power, share, call) for power in POWERS for share in TOTAL_SHARES for call in TOTAL_MOST):
        times = [duration(of.time(*key, column)) for column in ("before", "library")]
        (_, ratio, _), (_, _, noise) = (of.three("ratio", *key, pair) for pair in (CHANGE, CHANGE_NOISE))
        most = TOTAL_MOST[key[2]]
        aim, met = ("no slower", ratio <= max(1, noise)) if most == 1 else (f"at most {most}", ratio <= most)
        ratios = [spread(of, key, pair) for pair in (CHANGE, CHANGE_NOISE)]
        rows.append([f"2^{key[0]}", key[1], key[2], *times, *ratios, f"{aim}: {'met' if met else 'missed'}"])
    return with_note(table(["bits", "ones", "call", "before", "library", CHANGE, "before / before", "aim"], rows))


def other_machine_table(of, known):
    """The lines on a machine that are not those of another run."""
    return table(["", ""], [row for row in of.kind("machine") if row not in known.kind("machine")])


def alone_table(of):
    rows = []
    granted = {(row[0], row[2]): int(row[3]) for row in of.kind("bytes")}
    for power in POWERS:
        for call in ("count", "find 1", "turn"):
            for note in ("", ", alone", ", alone, dependent", ", alone, 2 MiB pages"):
                key = power, "32/64", call + note
                times = [duration(of.time(*key, column)) for column in COLUMNS[:2]]
                ratios = [spread(of, key, pair) for pair in (PAIR, NOISE)]
                bytes_ = granted.get((power, "in 2 MiB pages" + note))
                shown = "" if bytes_ is None else f"{bytes_ / (1 << 20):.0f} MiB"
                rows.append([f"2^{power}", call, note.removeprefix(", ") or "among all", *times, *ratios, shown])
    return with_note(table(["bits", "call", "", "library", "C++", "library / C++", "C++ / C++", "in 2 MiB pages"], rows))


def flips_table(of):
    rows = []
    for power, share in cells():
        names = (("turn", "library"), ("turn", "CRoaring"), ("turn by flip_inplace", "CRoaring"))
        times = [of.time(power, share, *name) for name in names]
        rows.append([f"2^{power}", share, *map(duration, times)])
    return table(["bits", "ones", "library", "CRoaring, add or remove", "CRoaring, flip_inplace"], rows)


def instructions_table(of):
    rows = []
    for call, names in FUNCTIONS.items():
        row = [call]
        for power in ("20", "24"):
            pair = [of.instructions(power, name) for name in names]
            if None in pair and of.kind("instructions"):
                raise SystemExit(f"benchmarks.tsv has no instructions of {' or '.join(names)} at 2^{power}")
            if None in pair:
                continue
            row += [f"{x[0]:,.0f}" for x in pair] + [f"{pair[0][0] / pair[1][0]:.2f}"] + [f"{x[1]:,.1f}" for x in pair]
        rows.append(row)
    head = ["library", "C++", "ratio", "library, mispredicted", "C++, mispredicted"]
    return table(["call"] + [f"2^{power}: {x}" for power in (20, 24) for x in head], rows)


def counter_bytes(bits):
    blocks = bits // 512
    height = next(h for h in (1, 2, 3) if 64**h >= blocks)
    return 4 * 72 * sum(-(-blocks // 64**t) for t in range(1, height + 1))


def memory_table(of):
    rows = []
    for power in POWERS:
        bits = 1 << int(power)

        def percent(bytes_):
            return f"{100 * bytes_ / (bits // 8):.3f} %"

        measured = {(row[1], row[2]): int(row[3]) for row in of.kind("bytes") if row[0] == power}
        row = [f"2^{power}", f"{bits // 8:,}", f"{counter_bytes(bits):,}", percent(counter_bytes(bits))]
        row += [f"{bits // 256 + 16:,}", percent(bits // 256 + 16)]
        for what in ("sdsl rank", "sdsl select"):
            found = [measured.get((share, what)) for share in SHARES]
            row.append("" if None in found else ", ".join(percent(x).replace(" %", "") for x in found) + " %")
        found = [measured.get((share, "CRoaring")) for share in SHARES]
        row.append("" if None in found else ", ".join(f"{100 * x / (bits // 8):.0f}" for x in found) + " %")
        rows.append(row)
    head = ["bits", "words, bytes", "counters, bytes", "over words", "head and entries, bytes", "over bits"]
    return table(head + ["sdsl rank", "sdsl select, both values", "CRoaring, whole"], rows)


def stack_table(of):
    rows = []
    for archive, name, bytes_, chain, leaves in sorted(of.kind("stack"), key=lambda row: -int(row[2])):
        rows.append([f"`{name}`", archive, f"{int(bytes_):,}", chain, leaves])
    return table(["call", "library", "bytes", "its chain, with the bytes of each", "calls outside"], rows)


def size_table(of):
    return table(["library", "part", "bytes"], [[a, part, f"{int(x):,}"] for a, part, x in of.kind("size")])


def word_table(of):
    times = [of.time("6", "32/64", "word select", column) for column in COLUMNS[:2]]
    return table(["library", "C++", "ratio"], [[*map(duration, times), f"{times[0] / times[1]:.2f}"]])


def machine_table(of):
    return table(["", ""], of.kind("machine"))


# ---- plots: the marks differ in shape, so that no colour is needed


def mark(shape, x, y, r=5):
    if shape in ("dot", "ring"):
        fill = "black" if shape == "dot" else "white"
        return f'<circle cx="{number(x)}" cy="{number(y)}" r="{r}" fill="{fill}" stroke="black"/>'
    corners = {
        "square": ((-1, -1), (1, -1), (1, 1), (-1, 1)),
        "triangle": ((0, -1.2), (1.1, 0.9), (-1.1, 0.9)),
        "diamond": ((0, -1.3), (1.3, 0), (0, 1.3), (-1.3, 0)),
    }[shape]
    points = " ".join(f"{number(x + r * dx)},{number(y + r * dy)}" for dx, dy in corners)
    fill = "black" if shape == "triangle" else "white"
    return f'<polygon points="{points}" fill="{fill}" stroke="black"/>'


def legend(parts, names, y):
    x = 140
    for shape, name in names:
        parts.append(mark(shape, x, y - 5))
        parts.append(text(x + 12, y, name, "start"))
        x += 50 + 9 * len(name)


def ratios_plot(of):
    shapes = (("ring", "20"), ("square", "24"), ("triangle", "27"))
    left, right, top, step = 160, WIDTH - 24, 70, 40
    calls = (*CALLS, *TWO_STRIPS, "burst, 600 of 1,000")
    high = max(of.three("ratio", p, "32/64", call, PAIR)[2] for p in POWERS for call in calls)
    high = max(1.5, math.ceil(10 * high) / 10)
    bottom = top + step * len(calls)

    def at(ratio):
        return left + (right - left) * ratio / high

    parts = [text(16, 24, "Time of the library over that of the C++ version, half ones; left of 1 is faster", "start", 15)]
    legend(parts, [(shape, f"2^{power} bits") for shape, power in shapes], 50)
    for tick in (t / 4 for t in range(0, int(high * 4) + 1, 2 if high > 2.5 else 1)):
        dash = "" if tick == 1 else ' stroke-dasharray="1 4"'
        parts.append(line(at(tick), top - 8, at(tick), bottom, dash))
        parts.append(text(at(tick), bottom + 18, number(tick)))
    for row, call in enumerate(calls):
        y = top + step * row + 8
        parts.append(text(left - 10, y + 12, call, "end"))
        for place, (shape, power) in enumerate(shapes):
            low, middle, upper = of.three("ratio", power, "32/64", call, PAIR)
            parts.append(line(at(low), y + 10 * place - 2, at(min(upper, high)), y + 10 * place - 2))
            parts.append(mark(shape, at(middle), y + 10 * place - 2, 4))
    parts.append(text(16, bottom + 40, "Marks are medians over the rounds, lines go from the lower to the upper quartile.", "start"))
    save("bench-ratios.svg", "Library over C++, by call and size", bottom + 54, parts)


def times_plot(of):
    shapes = (("dot", "library"), ("ring", "C++"), ("diamond", "sdsl"), ("triangle", "CRoaring"), ("square", "scan"))
    calls = ("count", "find 1", "turn")
    left, right, top, step = 140, WIDTH - 24, 70, 34
    bottom = top + step * len(calls) * len(POWERS)

    def at(ns):
        return left + (right - left) * math.log10(ns) / 7

    parts = [text(16, 24, "Time of a call, half ones; each dotted line is ten times the one before", "start", 15)]
    legend(parts, shapes, 50)
    for tick, name in enumerate(("1 ns", "10 ns", "100 ns", "1 µs", "10 µs", "100 µs", "1 ms", "10 ms")):
        x = at(10**tick)
        parts.append(line(x, top - 8, x, bottom, ' stroke-dasharray="1 4"'))
        parts.append(text(x, bottom + 18, name, "end" if tick == 7 else "middle"))
    for row, (call, power) in enumerate((call, power) for call in calls for power in POWERS):
        y = top + step * row + step / 2 - 4
        parts.append(text(left - 10, y + 5, f"{call}, 2^{power}", "end"))
        if row % len(POWERS) == 0 and row:
            parts.append(line(16, y - step / 2, right, y - step / 2))
        for shape, column in reversed(shapes):
            ns = of.time(power, "32/64", call, column)
            if ns:
                parts.append(mark(shape, at(max(ns, 1)), y))
    save("bench-times.svg", "Times of count, find and turn beside other libraries", bottom + 32, parts)


def main():
    of, changed, total = (Results(name) for name in ("benchmarks.tsv", "freeze.tsv", "total.tsv"))
    tables = {
        "summary": summary_table, "machine": machine_table, "aims": aims_table, "others": others_table,
        "freeze": freeze_table, "alone": alone_table, "flips": flips_table, "instructions": instructions_table, "memory": memory_table, "stack": stack_table,
        "size": size_table, "word": word_table, "pairs": lambda of: two_strips_table(of, PAIRS),
        "waiting": lambda of: two_strips_table(of, WAITING, ("two passes",)), "bursts": bursts_table, "merges": merges_table,
    }  # fmt: skip
    made = {name: make(of) for name, make in tables.items()}
    made |= {f"2^{power}": calls_table(of, power) for power in POWERS}
    made |= {"before": before_table(changed), "short": short_table(changed), "places": places_table(changed), "hand": hand_table(changed)}
    made |= {"before-machine": other_machine_table(changed, of), "total": total_table(total), "total-machine": other_machine_table(total, of)}

    def fill(found):
        return "\n".join([found[1], "", *made[found[2]], "", "<!-- end -->"])

    path = HERE / "BENCHMARKS.md"
    words = path.read_text(encoding="utf-8")
    words = re.sub(r"(<!-- table (\S+) -->)\n.*?<!-- end -->", fill, words, flags=re.S)
    path.write_text(words, encoding="utf-8", newline="\n")
    ratios_plot(of)
    times_plot(of)


if __name__ == "__main__":
    main()
