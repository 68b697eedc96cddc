"""Writes the input of the program `judged_runs`: outputs of the file `outputs.txt`, and drawn scripts.

    python3 tools/drawn_scripts/draw.py crates/host_cli/out/host_cli

The argument is the built program `host_cli`, beside which the scripts are drawn. The same program
gives the same file again.
"""

import os
import random
import subprocess
import sys

HERE = os.path.dirname(os.path.abspath(__file__))
sys.path.insert(0, os.path.join(HERE, "..", "compare"))

from drawing import Drawing

STDIN = os.path.join(HERE, "..", "..", "crates", "judged_runs", "stdin")
COMMAND = "# python3 tools/drawn_scripts/draw.py crates/host_cli/out/host_cli"

SIZES = range(1, 8)
KINDS = ["mixed", "calm", "storm", "split", "apart", "sessions", "reads"]
LINES = 180
FEWEST = {"entries": 12, "reads": 2, "stale answers": 1}
COUNTED = {"entries": ["entry"], "reads": ["read"], "stale answers": ["stale"], "leaders": ["leader"],
           "endings": ["done", "rejected", "responded", "registered", "closed"]}


def printed(program, lines):
    """What the program prints of a script that comes to its end."""
    text = "".join(line + "\n" for line in lines)
    run = subprocess.run([program, "run"], input=text, capture_output=True, text=True, timeout=60)
    if run.returncode != 0:
        raise SystemExit("status %d of the script:\n%s" % (run.returncode, text))
    return run.stdout.splitlines()


def counts_of(output):
    """How often each kind of line stands in an output."""
    verbs = [line.split()[0] for line in output]
    return {name: sum(map(verbs.count, counted)) for name, counted in COUNTED.items()}


def drawn(program, size, kind, attempt=0):
    """A script of a kind, and how much it prints: the first that shows enough of what is wanted."""
    rng = random.Random("%s, %d voters, attempt %d" % (kind, size, attempt))
    drawing = Drawing(rng, program, many=3)
    try:
        lines = drawing.whole(size, kind, LINES)
    finally:
        drawing.stop()
    counts = counts_of(printed(program, lines))
    if any(counts[name] < fewest for name, fewest in FEWEST.items()):
        return drawn(program, size, kind, attempt + 1)
    voters = ",".join(map(str, drawing.voters))
    return ["= script %d drawn, %s, voters %s" % (drawing.limit, kind, voters)] + lines, counts


def main():
    if len(sys.argv) != 2:
        raise SystemExit(__doc__)
    program = os.path.abspath(sys.argv[1])
    scripts = [drawn(program, size, kind) for kind in KINDS for size in SIZES]
    with open(os.path.join(HERE, "outputs.txt")) as file:
        outputs = file.read()
    with open(STDIN, "w") as file:
        file.write(COMMAND + "\n" + outputs)
        file.writelines(line + "\n" for section, _ in scripts for line in section)
    several = sum(counts["leaders"] > 1 for _, counts in scripts)
    lines = sum(len(section) - 1 for section, _ in scripts)
    print("%d scripts, %d of them with two leaders or more, %d lines" % (len(scripts), several, lines))
    print(", ".join("%d %s" % (sum(counts[name] for _, counts in scripts), name) for name in COUNTED))


if __name__ == "__main__":
    main()
