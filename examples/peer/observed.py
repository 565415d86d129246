#!/usr/bin/env python3
"""Writes `vkernel observed 1`: the steps of a report, and behind them what an own station answered.

    observed.py SCENARIO REPORT LOG ANSWERS

REPORT is what `vkernel replay` says of the joined logs, LOG and ANSWERS are those of station.py. An answer where the
rules give no step, as a collect that comes too early, stands behind the step that the station has made.
"""
import sys


def main(scenario, report, log, answers):
    print("vkernel observed 1")
    for line in open(scenario):
        if line.startswith("process "):
            print(line, end="")
    events = open(log).read().split("station 1\n")[1].splitlines()
    told = dict(enumerate(open(answers).read().splitlines(), 1))
    own, waits = None, None
    for line in open(report).read().splitlines()[1:]:
        kind, *rest = line.split(" ")
        if kind == "step":
            print(*rest)
            if own and rest[0] in ("call", "collect"):
                print("saw", own)
                own = None
        elif kind.isdigit():
            if own and waits:
                print(waits, "saw " + own, sep="\n")
            station, event = rest[0].split(":")
            own = answer_of(told, event) if station == "1" else None
            waits = events[int(event) - 1] if own else None
    if own and waits:
        print(waits, "saw " + own, sep="\n")


def answer_of(told, event):
    """Returns what the station's process saw at this event, if it saw something."""
    answer = told.get(int(event), "") if event.isdigit() else ""
    return None if answer.split(" ")[0] in ("", "begun", "notyet", "now", "taken", "old") else answer


if __name__ == "__main__":
    main(*sys.argv[1:])
