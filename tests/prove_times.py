#!/usr/bin/env python3
"""Takes the time of proving every crate from nothing, at commits in today's Rattle.

    tests/prove_times.py [--jobs N] [--out FILE] [COMMIT ...]

Each commit (HEAD where none is named) is cloned into a temporary folder and proved there by `rt all verdict`, which takes nothing from earlier
runs, one commit after another. Nothing else may run on the machine meanwhile. Prints a row of a table for each commit as soon as it is timed:
wall time and processor time of its children. The commits before the port to today's Rattle do not prove in it.

--jobs N     so many crates at a time; without it rt chooses
--out FILE   the table into FILE too, written again after each row
"""
import argparse
import os
import platform
import resource
import shutil
import subprocess
import sys
import tempfile
import time


def crates_of(commit):
    """What is proved of a commit: two commits with the same are proved once."""
    names = subprocess.run(["git", "rev-parse", f"{commit}:crates", f"{commit}:crates.txt"], capture_output=True, text=True, check=True)
    return names.stdout


def prove(commit, flags):
    """Wall and processor seconds of `rt all verdict` in a clone at the commit; None where it is refused."""
    folder = tempfile.mkdtemp()
    try:
        subprocess.run(["git", "clone", "--quiet", "--no-checkout", ".", folder], check=True)
        subprocess.run(["git", "-C", folder, "checkout", "--quiet", commit], check=True)
        before = resource.getrusage(resource.RUSAGE_CHILDREN)
        start = time.monotonic()
        done = subprocess.run(["rt", "all", "verdict", *flags], cwd=folder, stdout=subprocess.PIPE, stderr=subprocess.STDOUT, text=True)
        wall = time.monotonic() - start
        after = resource.getrusage(resource.RUSAGE_CHILDREN)
        if done.returncode != 0:
            print(done.stdout[-2000:], file=sys.stderr)
            return None
        return wall, after.ru_utime + after.ru_stime - before.ru_utime - before.ru_stime
    finally:
        shutil.rmtree(folder)


def minutes(seconds):
    return f"{int(seconds) // 60} min {int(seconds) % 60:02} s"


def main():
    words = argparse.ArgumentParser(description=__doc__, formatter_class=argparse.RawDescriptionHelpFormatter)
    words.add_argument("--jobs")
    words.add_argument("--out")
    words.add_argument("commits", nargs="*", default=["HEAD"])
    asked = words.parse_args()
    out_file = asked.out and os.path.abspath(asked.out)
    os.chdir(os.path.join(os.path.dirname(os.path.abspath(__file__)), ".."))
    commits = []
    for name in asked.commits:
        found = subprocess.run(["git", "rev-parse", "--short", f"{name}^{{commit}}"], capture_output=True, text=True, check=False)
        if found.returncode != 0:
            words.error(f"no such commit: {name}")
        commits.append(found.stdout.strip())
    taken = {}
    lines = [f"Processor: {platform.processor() or platform.machine()}, {os.cpu_count()} cores", "",
             "| Commit | Wall | Processor |", "|---|---|---|"]
    print("\n".join(lines), flush=True)
    for commit in commits:
        key = crates_of(commit)
        if key not in taken:
            print(f"prove_times: {commit} …", file=sys.stderr, flush=True)
            taken[key] = prove(commit, ["--jobs", asked.jobs] if asked.jobs else [])
        times = "not proved | not proved" if taken[key] is None else " | ".join(map(minutes, taken[key]))
        lines.append(f"| {commit} | {times} |")
        print(lines[-1], flush=True)
        if out_file:
            with open(out_file, "w", encoding="utf-8") as out:
                out.write("\n".join(lines) + "\n")
    return 1 if None in taken.values() else 0


if __name__ == "__main__":
    sys.exit(main())
