#!/usr/bin/env python3
"""Runs programs with refs, tasks and actors by random schedules: random_schedules.py PROGRAM [COUNT].

Each run keeps its trace. It must end by itself, its report must have a line for each line of the schedule, and the replay of its
trace must print the same bytes. A schedule that shows the contrary is printed. The schedules are the same at each run. Their names are mostly
those of units, tasks and actors that the program has, and all schedules together must come to each answer of `ANSWERS`."""
import collections
import os
import random
import re
import subprocess
import sys
import tempfile

COUNTER = "(def counter (behavior [n] [k] (println (+ n k)) (become counter (+ n k))))"
SOURCES = {
    "a transaction sends what it has read": """(def printer (behavior [] [n] (println "got" n)))
(def r (ref 0))
(def p (spawn printer))
(def t (fork (dosync (let [n @r] (send p n) (ref-set r (+ n 1))))))
(dosync (alter r + 10))
(join t)
(println @r)""",
    "a turn reads a ref": """(def r (ref 0))
(def reader (behavior [] [] (println "r is" @r)))
(def a (spawn reader))
(dosync (ref-set r 7) (send a))""",
    "two senders": """(def log (behavior [] [who n] (println who n)))
(def l (spawn log))
(fork (do (send l "a" 1) (send l "a" 2) (send l "a" 3)))
(fork (do (send l "b" 1) (send l "b" 2) (send l "b" 3)))""",
    "an actor becomes another": f"{COUNTER}\n(def c (spawn counter 10))\n(send c 1)\n(send c 2)",
    "a transaction makes an actor": "(def b (behavior [] [x] (println x))) (dosync (let [a (spawn b)] (send a 4) nil))",
    "a turn sends on": """(def r (ref 0))
(def b (behavior [] [n] (println "b" n)))
(def a (behavior [next] [n] (println "a" n) (send next n)))
(def pb (spawn b))
(def pa (spawn a pb))
(def t (fork (dosync (let [n @r] (send pa n) (ref-set r (+ n 1))))))
(dosync (alter r + 10))
(join t)""",
    "turns with transactions": """(def r (ref 0))
(def add (behavior [] [n] (dosync (alter r + n)) (println "added" n)))
(def a (spawn add))
(def b (spawn add))
(fork (do (send a 1) (send b 2)))
(dosync (let [f (fork (alter r + 5))] (send a 3) (join f) nil))
(send b 4)""",
}


# what some line must be answered, over all programs
ANSWERS = [b"settled", b"held", b"local", b"began", b"waiting", b"aborted", b"stale", b"not-ready"]


def any_name(chance):
    """A name of main, or of something that was made by it or below it: mostly one with few and small parts."""
    parts = ["0"]
    while len(parts) < 5 and chance.random() < 0.7:
        parts.append(str(min(int(chance.expovariate(0.6)), 6)))
    return ".".join(parts)


def pieces(program, source, folder):
    """The units and the actors that a run of the source by one thread has, as its trace tells."""
    write(folder, "a.clj", source)
    write(folder, "s", "")
    ran([program, "schedule", "a.clj", "s", "--trace", "t"], folder)
    with open(os.path.join(folder, "t"), encoding="utf-8") as trace:
        text = trace.read()
    return sorted(set(re.findall(r"^run ([0-9.]+)$", text, re.M))), sorted(set(re.findall(r"^take ([0-9.]+) ", text, re.M)))


def line(chance, units, actors, turns):
    """A line that goes on with main, with a unit or with what it may have made, or that begins the turn of an actor; or any line."""
    kind = chance.random()
    if kind < 0.15:
        return "go 0"
    if actors and kind < 0.45:
        return chance.choice([f"turn {chance.choice(actors)}", f"go {chance.choice(turns)}"])
    if kind < 0.6:
        return f"go {chance.choice(units)}"
    if kind < 0.9:
        return f"go {chance.choice(units)}.{chance.randrange(4)}"
    return f"{chance.choice(['go', 'turn', 'hold', 'back'])} {chance.choice([*units, *actors, any_name(chance)])}"


def schedule(chance, units, actors):
    """Lines, most of which find nothing that is ready under their name; those that are left go on with one piece after the other."""
    turns = [unit for unit in units if unit.rpartition(".")[0] in actors]
    return [line(chance, units, actors, turns) for _ in range(chance.randrange(50, 400))]


def ran(words, folder):
    done = subprocess.run(words, cwd=folder, capture_output=True)
    return done.returncode, done.stdout, done.stderr


def write(folder, file, text):
    with open(os.path.join(folder, file), "w", encoding="utf-8") as out:
        out.write(text)


def fault(program, source, lines, folder, answers):
    """What is wrong with the run of the source by these lines, or None. What the lines were answered is counted."""
    write(folder, "a.clj", source)
    write(folder, "s", "".join(f"{line}\n" for line in lines))
    status, printed, report = ran([program, "schedule", "a.clj", "s", "--trace", "t"], folder)
    if status != 0:
        return f"status {status}: {report[-200:]}"
    answers.update(line.split()[1] for line in report.splitlines())
    told = report.count(b"\n")
    if told != len(lines):
        return f"{told} lines of the report for {len(lines)} of the schedule"
    again = ran([program, "replay", "a.clj", "t"], folder)
    return None if again == (0, printed, b"") else f"it printed {printed}, and its replay {again}"


def main(program, count):
    wrong = 0
    program = os.path.realpath(program)
    answers = collections.Counter()
    with tempfile.TemporaryDirectory() as folder:
        for title, source in SOURCES.items():
            units, actors = pieces(program, source, folder)
            for seed in range(count):
                lines = schedule(random.Random(f"{title} {seed}"), units, actors)
                why = fault(program, source, lines, folder, answers)
                if why:
                    wrong += 1
                    print(f"{title}, {seed}: {why}")
                    print("\n".join(lines))
                    break
    missing = [answer for answer in ANSWERS if not answers[answer]]
    if missing:
        print(f"no line was answered {missing}; the answers were {dict(answers)}")
    return 1 if wrong or missing else 0


if __name__ == "__main__":
    sys.exit(main(sys.argv[1], int(sys.argv[2]) if len(sys.argv) > 2 else 200))
