"""The workloads of workloads.txt, in two built checkouts by turns: `bench/run [--differs NAME].. OLD NEW [SEED]`."""
import statistics
import subprocess
import time
from pathlib import Path

# How often each side runs a workload.
TURNS = 7
# The number that stands for SEED if none is given.
SEED = 1


class Differs(Exception):
    """The two sides print different results, or one of them has none."""


def workloads(checkout):
    """Yields the name, the crate, the words and the file of standard input of each workload."""
    for line in (checkout / "bench/workloads.txt").read_text(encoding="utf-8").splitlines():
        name, crate, *words = line.split()
        entered = words.pop()[1:] if words and words[-1].startswith("<") else None
        yield name, crate, words, entered


def timed(checkout, crate, words, entered):
    """Runs a workload's program in the folder bench/; returns what it prints, and the seconds that it took."""
    folder = checkout / "bench"
    program = checkout / "crates" / crate / "out" / crate
    with open(folder / entered if entered else "/dev/null", "rb") as given:
        begin = time.perf_counter()
        ran = subprocess.run([program, *words], cwd=folder, stdin=given, stdout=subprocess.PIPE)
        took = time.perf_counter() - begin
    if ran.returncode:
        raise Differs(f"{program} {' '.join(words)} ended with {ran.returncode}")
    return ran.stdout, took


def compare(old, new, seed, names):
    """Prints for each workload the medians of both sides, and the first over the second; the outputs of those of the names may differ."""
    print("| NAME | seconds at the start | seconds now | start over now |\n|---|---:|---:|---:|", flush=True)
    for name, crate, words, entered in workloads(new):
        words = [str(seed) if it == "SEED" else it for it in words]
        taken = ([], [])
        for _ in range(TURNS):
            results = []
            for side, checkout in enumerate((old, new)):
                result, took = timed(checkout, crate, words, entered)
                results.append(result)
                taken[side].append(took)
            if results[0] != results[1] and name not in names:
                raise Differs(f"{name}: the outputs differ: {results[0]!r} and {results[1]!r}")
        before, now = (statistics.median(it) for it in taken)
        print(f"| {name} | {before:.3f} | {now:.3f} | {before / now:.2f} |", flush=True)


def run(words, names):
    """Compares the checkouts OLD and NEW, with the number SEED or 1; returns the status."""
    old, new = (Path(it).resolve() for it in words[:2])
    try:
        compare(old, new, int(words[2]) if len(words) > 2 else SEED, names)
    except (Differs, OSError, ValueError) as what:
        print(f"bench/run: {what}", flush=True)
        return 1
    return 0
