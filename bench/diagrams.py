"""Times the work on diagrams: one run of the proved program and one over BuDDy in turn, for some rounds.

Called by diagrams.sh. Times are user and system processor time.
"""
import os
import statistics
import subprocess
import sys

from measure import processor

# What is done: the words of both programs, and whether its look-ups are counted.
WORKS = {
    "spread codes": (["100000", "8192", "0", "0"], True),
    "dense codes": (["100000", "8192", "0", "1"], True),
    "spread codes, quantified": (["20000", "8192", "256", "0"], False),
    "dense codes, quantified": (["20000", "8192", "256", "1"], False),
}


def run(words):
    """Runs a program to its end. Gives its processor seconds and the numbers of its line, by their names."""
    child = subprocess.Popen(words, stdin=subprocess.DEVNULL, stdout=subprocess.PIPE)
    line = child.stdout.read().decode("ascii").split()
    child.stdout.close()
    _, status, usage = os.wait4(child.pid, 0)
    child.returncode = os.waitstatus_to_exitcode(status)
    if child.returncode != 0 or len(line) < 8:
        sys.exit(f"{words[0]} ended with status {child.returncode}: {' '.join(line)}")
    return usage.ru_utime + usage.ru_stime, dict(zip(line[::2], map(int, line[1::2])))


def main():
    program, peer, cache, rounds = sys.argv[1], sys.argv[2], sys.argv[3], int(sys.argv[4])
    print(f"processor: {processor()}")
    for work, (words, is_counted) in WORKS.items():
        programs = {"diagram_bench": [program, *words], "BuDDy": [peer, *words, cache]}
        seconds = {name: [] for name in programs}
        told = {}
        for _ in range(rounds):
            for name, command in programs.items():
                spent, told[name] = run(command)
                seconds[name].append(spent)
        ours, theirs = told.values()
        for number in ["operations", "left", "range"]:
            if ours[number] != theirs[number]:
                sys.exit(f"{number}: {ours[number]} and {theirs[number]}")
        lookups = run([*programs["BuDDy"], "count"])[1]["look-ups"] if is_counted else None
        print(f"== {work}: {' '.join(words)}, {ours['operations']} operations")
        medians = {name: statistics.median(times) for name, times in seconds.items()}
        for name, median in medians.items():
            rates = f"{ours['operations'] / median:,.0f} operations a second, "
            rates += f"{told[name]['nodes'] / median:,.0f} nodes a second"
            if lookups:
                rates += f", {lookups / median:,.0f} look-ups a second"
            print(f"{name}: {median:.3f} s ({min(seconds[name]):.3f} to {max(seconds[name]):.3f}), {rates}")
        print(f"ratio: {medians['diagram_bench'] / medians['BuDDy']:.2f}")


if __name__ == "__main__":
    main()
