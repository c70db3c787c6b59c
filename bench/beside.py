"""beside.py WHAT BEFORE NOW: what two builds of bench/reads.c printed over several turns, as a table in Markdown: the least time of each, and their ratio.

C is the C program's time, the least of both builds' runs.
"""
import sys


def least(path):
    """The least of each column, by samples, kind and bytes."""
    found = {}
    for line in open(path):
        samples, what, size, *times = line.rstrip("\n").split("\t")
        times = [float(time) for time in times]
        key = (samples, what, size)
        found[key] = [min(pair) for pair in zip(found.get(key, times), times)]
    return found


def main():
    what, before, now = sys.argv[1], least(sys.argv[2]), least(sys.argv[3])
    print(f"\n| {what.capitalize()}: N, records | bytes | read: before, now | now / before | C | row: before, now | now / before | C | check: before, now | now / before | C |")
    print("|---|---|---|---|---|---|---|---|---|---|---|")
    for key, old in before.items():
        new, cells = now[key], []
        for call in range(3):
            plain = min(old[call + 3], new[call + 3])
            cells.append(f"{old[call]:.0f}, {new[call]:.0f} | {new[call] / old[call]:.2f} | {plain:.0f}")
        print(f"| N = {key[0]}, {key[1]} | {key[2]} | {' | '.join(cells)} |")


main()
