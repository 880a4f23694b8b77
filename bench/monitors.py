"""Times monitors on one log: one run of each in turn, for some rounds. Called by monitors.sh."""
import filecmp
import os
import statistics
import sys

from measure import processor, run


def lines_of(report):
    """The lines of a report, of each violation only its event and property: what else it shows is not compared."""
    with open(report, encoding="utf-8", errors="replace") as written:
        for line in written:
            words = line.split()
            yield " ".join(words[:3]) if words[0] == "violation" else line.strip()


def main():
    spec, log = sys.argv[1:3]
    events, rounds = int(sys.argv[3]), int(sys.argv[4])
    programs = sys.argv[5:]
    names = ["dejavu"] + [os.path.basename(peer) for peer in programs[1:]]
    seconds = {name: [] for name in names}
    peaks = dict.fromkeys(names, 0)
    for _ in range(rounds):
        wanted = None
        for name, program in zip(names, programs):
            report = f"{log}.{name}"
            spent, peak, status = run([program, spec, log], report)
            seconds[name].append(spent)
            peaks[name] = max(peaks[name], peak)
            told = list(lines_of(report))
            wanted = wanted or (status, told)
            if (status, told) != wanted or not told[-1].startswith(f"events {events} "):
                sys.exit(f"{name} reports something else, with status {status}")

    print(f"processor: {processor()}")
    print(f"{events} events, {rounds} rounds; user and system time")
    print("monitor          ns/event: median   least  greatest   peak KiB   to dejavu   report")
    own = statistics.median(seconds["dejavu"])
    for name in names:
        times = sorted(seconds[name])
        median = statistics.median(times)
        each = [1e9 * it / events for it in (median, times[0], times[-1])]
        alike = filecmp.cmp(f"{log}.{names[0]}", f"{log}.{name}", shallow=False)
        report = "same" if alike else "same but for values"
        print(
            f"{name:24} {each[0]:10.0f} {each[1]:7.0f} {each[2]:9.0f} {peaks[name]:10} {median / own:11.2f}   {report}"
        )


if __name__ == "__main__":
    main()
