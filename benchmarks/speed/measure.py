#!/usr/bin/env python3
"""Runs a command, checks what it says, and prints its seconds and its peak memory."""
import argparse
import resource
import subprocess
import sys
import time


def children_peak():
    """The peak memory of the largest child so far, in MiB; Linux gives it in KiB."""
    return resource.getrusage(resource.RUSAGE_CHILDREN).ru_maxrss / 1024


def main():
    parser = argparse.ArgumentParser(description=__doc__)
    parser.add_argument("--expect", required=True, help="the line that the command must print")
    parser.add_argument("--rows", type=int, help="the rows judged, for rows per second")
    parser.add_argument("--below", type=float, help="the MiB that the peak memory must stay below")
    parser.add_argument("command", nargs=argparse.REMAINDER)
    options = parser.parse_args()
    # A child's peak includes this process as it was forked, so a smaller program cannot be told.
    subprocess.run(["true"], check=True)
    floor = children_peak()
    begin = time.monotonic()
    run = subprocess.run(options.command, stdout=subprocess.PIPE, check=False)
    seconds = time.monotonic() - begin
    said = run.stdout.decode("utf-8", "replace").strip()
    peak = children_peak()
    print(f"answer: {said} (status {run.returncode})")
    print(f"seconds: {seconds:.2f}")
    if options.rows:
        print(f"rows per second: {options.rows / seconds:.0f}")
    # Forks of this process differ by some pages: within 1 MiB of the floor nothing is measured.
    if peak <= floor + 1:
        print(f"peak memory: below {floor + 1:.1f} MiB, the least that this script can measure")
    else:
        print(f"peak memory: {peak:.1f} MiB")
    if said != options.expect:
        print(f"expected: {options.expect}", file=sys.stderr)
        return 1
    if options.below and peak >= options.below:
        print(f"the peak memory is not below {options.below:.0f} MiB", file=sys.stderr)
        return 1
    return 0


if __name__ == "__main__":
    sys.exit(main())
