#!/usr/bin/env python3
"""Times the pager beside a plain one in Rust under the same load: nine runs each in turn, the medians and their ratio."""
import pathlib
import resource
import statistics
import subprocess
import sys
import tempfile

TOP = pathlib.Path(__file__).resolve().parent.parent
CHECKED_CALLS = 100_000
RUNS = 9
RUN_SECONDS = 0.5


def built(command, folder):
    """Runs a build; what it says is shown only where it fails."""
    done = subprocess.run(command, cwd=folder, stdout=subprocess.PIPE, stderr=subprocess.STDOUT, text=True)
    if done.returncode != 0:
        sys.exit(f"{done.stdout}\n{' '.join(command)} failed")


def build_pager():
    """The Rattle program, as `rt run` proves and builds it."""
    crate = TOP / "crates" / "page_load"
    built(["rt", "run"], crate)
    return [str(crate / "out" / "page_load")]


def build_plain(folder):
    """The plain pager, for the kind of processor that Rattle builds for."""
    program = str(pathlib.Path(folder) / "plain")
    built(["rustc", "-O", "--edition", "2024", "-C", "target-cpu=x86-64-v2", "-o", program, "plain.rs"], TOP / "bench")
    return [program]


def printed(command, calls):
    return subprocess.run([*command, str(calls)], check=True, stdout=subprocess.PIPE, text=True).stdout


def spent():
    usage = resource.getrusage(resource.RUSAGE_CHILDREN)
    return usage.ru_utime + usage.ru_stime


def seconds(command, calls):
    """The processor time of one run: other work on the machine tells less on it than on the run's length."""
    program, *words = command
    before = spent()
    subprocess.run([program, str(calls), *words], check=True, stdout=subprocess.DEVNULL)
    return spent() - before


def calls_for(command):
    """How many calls take about RUN_SECONDS."""
    calls = 1_000_000
    quickest = min(seconds(command, calls) for _ in range(3))
    return round(10 * RUN_SECONDS / quickest) * calls // 10


def medians(commands, calls):
    """The commands in turn, so that a slow spell of the machine falls on all of them."""
    rounds = [[seconds(command, calls) for command in commands] for _ in range(RUNS)]
    return [statistics.median(times) for times in zip(*rounds)]


def report(pager, plain):
    calls = calls_for(pager)
    ours, theirs, load = medians([pager, plain, [*plain, "idle"]], calls)
    print(f"processor time of {calls} calls, medians of {RUNS} runs each:")
    for name, time in [("pager", ours), ("plain pager", theirs), ("load alone", load)]:
        print(f"  {name:<12} {time:.3f} s, {1e9 * time / calls:5.1f} ns a call")
    print(f"ratio                   {ours / theirs:.2f}")
    print(f"ratio without the load  {(ours - load) / (theirs - load):.2f}")


def main():
    with tempfile.TemporaryDirectory() as folder:
        pager, plain = build_pager(), build_plain(folder)
        texts = [printed(program, CHECKED_CALLS) for program in (pager, plain)]
        if texts[0] != texts[1]:
            sys.exit(f"{texts[0]}{texts[1]}the two differ")
        print(f"both print the same for {CHECKED_CALLS} calls")
        report(pager, plain)


if __name__ == "__main__":
    main()
