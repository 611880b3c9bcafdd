#!/usr/bin/env python3
"""Runs the programs that stand under "Three programs" in docs/LANGUAGE.md by one thread, which is by a schedule without lines, and
compares what they print with what reference.py prints: first_programs.py PAGE PROGRAM."""
import os
import re
import subprocess
import sys
import tempfile


def programs(page):
    part = page.partition("## Three programs")[2].partition("\n## ")[0]
    blocks = re.findall(r"(?:^    .*\n|^\n(?=    ))+", part, re.MULTILINE)
    return ["".join(line[4:] or "\n" for line in block.splitlines(True)) for block in blocks]


def written(words):
    ran = subprocess.run(words, capture_output=True)
    return ran.returncode, ran.stdout


def main(page, program):
    tools = os.path.join(os.path.dirname(os.path.dirname(os.path.realpath(__file__))), "tools")
    with open(page, encoding="utf-8") as file:
        found = programs(file.read())
    wrong = 0 if found else 1
    for source in found:
        with tempfile.NamedTemporaryFile("w", suffix=".clj") as file:
            file.write(source)
            file.flush()
            os.chmod(file.name, 0o644)
            if written([program, "schedule", file.name, os.devnull]) != written([sys.executable, f"{tools}/reference.py", file.name]):
                print(source)
                wrong += 1
    return wrong


if __name__ == "__main__":
    sys.exit(main(*sys.argv[1:]))
