#!/usr/bin/env python3
"""Runs each example, and a thousand transfers, again and again by 4 and by 64 workers: hundred_runs.py PROGRAM [COUNT].

Each run keeps its trace, and the replay of that must answer the same status, the same bytes and the same line. A line says of each
source how many runs there were and how many different traces. A run that shows the contrary is printed, and its trace is kept."""
import glob
import os
import subprocess
import sys
import tempfile

TOP = os.path.dirname(os.path.dirname(os.path.abspath(__file__)))
CREWS = (4, 64)


def answer(words):
    """The status, the bytes and the line of a run of the program."""
    run = subprocess.run(words, capture_output=True)
    return run.returncode, run.stdout, run.stderr


def runs(program, path, crew, count, trace):
    """The traces of so many runs of the source, and how many of them a replay does not answer alike."""
    traces, wrong = set(), 0
    for number in range(count):
        first = answer([program, "run", path, "--workers", str(crew), "--trace", trace])
        again = answer([program, "replay", path, trace])
        with open(trace, "rb") as file:
            text = file.read()
        traces.add(text)
        if first != again:
            wrong += 1
            kept = f"{os.path.basename(path)}.{crew}.{number}.trace"
            with open(kept, "wb") as file:
                file.write(text)
            print(f"{path} by {crew} workers, run {number}: {first} is not {again}; the trace is in {kept}")
        os.remove(trace)
    return traces, wrong


def main():
    program = os.path.abspath(sys.argv[1])
    count = int(sys.argv[2]) if len(sys.argv) > 2 else 100
    failed = 0
    with tempfile.TemporaryDirectory() as folder:
        made = os.path.join(folder, "transfers.clj")
        with open(made, "wb") as file:
            file.write(subprocess.run([program, "make", "7", "1000"], check=True, capture_output=True).stdout)
        trace = os.path.join(folder, "trace")
        for path in [*sorted(glob.glob(os.path.join(TOP, "examples", "*.clj"))), made]:
            for crew in CREWS:
                traces, wrong = runs(program, path, crew, count, trace)
                failed += wrong
                print(f"{os.path.basename(path)} by {crew} workers: {count} runs, {len(traces)} traces, {wrong} wrong", flush=True)
    print(f"{failed} failed")
    sys.exit(failed != 0)


main()
