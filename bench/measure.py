"""Times a monitor beside programs that only read its log: one run of each in turn, for some rounds.

Called by run.sh, with the name of a peer as the last word, or nothing there. Times are user and system processor
time. Peak memory is what the kernel counts for the running process, asked every few milliseconds.
"""
import os
import statistics
import subprocess
import sys
import time


def peak_kib(pid):
    """The peak of resident memory of a running process, or 0 where the kernel does not tell it."""
    try:
        with open(f"/proc/{pid}/status", encoding="ascii", errors="replace") as status:
            for line in status:
                if line.startswith("VmHWM:"):
                    return int(line.split()[1])
    except OSError:
        pass
    return 0


def run(words, output):
    """Runs a program to its end. Gives its processor seconds, its peak memory and its exit status."""
    peak = 0
    with open(output, "wb") as out:
        child = subprocess.Popen(words, stdin=subprocess.DEVNULL, stdout=out)
    while True:
        pid, status, usage = os.wait4(child.pid, os.WNOHANG)
        if pid != 0:
            child.returncode = os.waitstatus_to_exitcode(status)
            return usage.ru_utime + usage.ru_stime, peak, child.returncode
        peak = max(peak, peak_kib(child.pid))
        time.sleep(0.005)


def processor():
    try:
        with open("/proc/cpuinfo", encoding="utf-8", errors="replace") as info:
            for line in info:
                if line.startswith("model name"):
                    return line.split(":", 1)[1].strip()
    except OSError:
        pass
    return "unknown"


def main():
    program, spec, log = sys.argv[1:4]
    lines, rounds, peer = int(sys.argv[4]), int(sys.argv[5]), sys.argv[6]
    report = log + ".report"
    counted = log + ".counted"
    programs = {
        "dejavu": ([program, spec, log], report),
        "wc -l": (["wc", "-l", log], os.devnull),
        "cat": (["cat", log], os.devnull),
    }
    if peer:
        programs["peer"] = ([peer, "records", log], counted)
    seconds = {name: [] for name in programs}
    peaks = dict.fromkeys(programs, 0)
    for _ in range(rounds):
        for name, (words, output) in programs.items():
            spent, peak, status = run(words, output)
            seconds[name].append(spent)
            peaks[name] = max(peaks[name], peak)
            if status != 0:
                sys.exit(f"{name} ended with status {status}")
    with open(report, encoding="ascii") as written:
        if written.read() != f"events {lines} violations 0\n":
            sys.exit("the report is not the one wanted")
    if peer:
        with open(counted, encoding="ascii") as written:
            if written.read().split()[:2] != ["records", str(lines)]:
                sys.exit("the peer's count of records is not the one wanted")

    medians = {name: statistics.median(times) for name, times in seconds.items()}
    print(f"processor: {processor()}")
    print(f"log: {lines} lines, {os.path.getsize(log)} bytes; median of {rounds} rounds, user and system time")
    for name in programs:
        spread = f"{min(seconds[name]):.3f} to {max(seconds[name]):.3f}"
        peak = f"{peaks[name]} KiB at most" if peaks[name] else "memory not seen"
        nanoseconds = medians[name] / lines * 1e9
        print(f"{name:7} {medians[name]:7.3f} s ({spread})  {nanoseconds:7.2f} ns a line  {peak}")
    for name in programs:
        if name != "dejavu" and medians[name] > 0:
            print(f"dejavu / {name}: {medians['dejavu'] / medians[name]:.1f}")


if __name__ == "__main__":
    main()
