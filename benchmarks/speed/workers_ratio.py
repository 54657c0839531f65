#!/usr/bin/env python3
"""Tells how many times as fast several workers read and judge rows as one does.

STAGE_TIMES is the program of crates/stage_times; each IMAGE=TRACE is a trace and its image. In each
trial the program goes through a trace once with one worker and once with several, and the traces
take turns. A trial is quiet where the host took no more than --steal per cent of the time of all
processors while it ran (`steal` in /proc/stat); the others tell of a machine that is not idle. What
is fixed before anything is measured: how many trials are run, that bound, and that the figure of a
trace is the sum of the times with one worker over the sum with several, over all quiet trials. The
medians of single trials are told beside it, and both over all trials. The status is 1 where a trace
has fewer than --quiet quiet trials, or a figure below --least, which is 3.4 for four workers, 1.8
for two, and 0 for any other number.
"""
import argparse
import statistics
import subprocess
import sys

WANTED = {2: 1.8, 4: 3.4}


def processors_time():
    """What all processors took so far, and how much of it the host took, in ticks."""
    with open("/proc/stat", encoding="ascii") as lines:
        ticks = [int(word) for word in next(lines).split()[1:9]]
    return sum(ticks), ticks[7]


class Trial:
    """The microseconds of reading and judging, by one worker and several, and the host's share."""

    def __init__(self, program, image, trace, workers):
        all_before, host_before = processors_time()
        run = subprocess.run([program, image, trace, str(workers), "1"], check=True,
                             stdout=subprocess.PIPE, text=True)
        all_after, host_after = processors_time()
        stages = {words[0]: words[1:] for words in map(str.split, run.stdout.splitlines())
                  if len(words) == 3}
        self.one, self.several = (int(stages["reading"][place]) + int(stages["judging"][place])
                                  for place in (0, 1))
        self.steal = 100 * (host_after - host_before) / max(1, all_after - all_before)


def told(trials):
    """The figure of these trials, and a line about it."""
    if not trials:
        return 0.0, "none"
    figure = sum(trial.one for trial in trials) / sum(trial.several for trial in trials)
    single = sorted(trial.one / trial.several for trial in trials)
    mean = [statistics.mean(times) / 1000
            for times in zip(*((trial.one, trial.several) for trial in trials))]
    return figure, (f"{len(trials)}; {figure:.2f} by the sums, {statistics.median(single):.2f} the "
                    f"median of single trials, which lie from {single[0]:.2f} to {single[-1]:.2f}; "
                    f"{mean[0]:.0f} and {mean[1]:.0f} milliseconds on average")


def main():
    parser = argparse.ArgumentParser(description=__doc__,
                                     formatter_class=argparse.RawDescriptionHelpFormatter)
    parser.add_argument("program", metavar="STAGE_TIMES")
    parser.add_argument("traces", metavar="IMAGE=TRACE", nargs="+")
    parser.add_argument("--workers", type=int, default=4)
    parser.add_argument("--trials", type=int, default=60, help="trials of each trace")
    parser.add_argument("--steal", type=float, default=1.0, help="per cent")
    parser.add_argument("--quiet", type=int, default=20, help="quiet trials that are wanted")
    parser.add_argument("--least", type=float, help="the least figure that is wanted")
    parser.add_argument("--single", action="store_true", help="tell each trial too")
    options = parser.parse_args()
    least = WANTED.get(options.workers, 0.0) if options.least is None else options.least
    trials = {pair: [] for pair in options.traces}
    for _ in range(options.trials):
        for pair, done in trials.items():
            image, trace = pair.split("=", 1)
            done.append(Trial(options.program, image, trace, options.workers))
            if options.single:
                last = done[-1]
                print(f"{trace} {last.one} {last.several} {last.one / last.several:.2f} "
                      f"steal {last.steal:.2f}", flush=True)
    is_shown = True
    for pair, done in trials.items():
        quiet = [trial for trial in done if trial.steal <= options.steal]
        figure, line = told(quiet)
        print(pair.split("=", 1)[1])
        print(f"  quiet trials: {line}")
        print(f"  all trials: {told(done)[1]}")
        is_shown = is_shown and options.quiet <= len(quiet) and least <= figure
    return 0 if is_shown else 1


if __name__ == "__main__":
    sys.exit(main())
