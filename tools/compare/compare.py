"""Runs two programs on the same scripts, and compares what they give.

    python3 compare.py PRODUCT PLAIN FROM TO     drawn scripts of the seeds FROM to TO
    python3 compare.py PRODUCT PLAIN --load      time and memory on the load scripts
    python3 compare.py PRODUCT PLAIN --load L..  the same on these alone, as "reads 60000"
    python3 compare.py PRODUCT PLAIN --file F..  the scripts of these files

Output and exit status have to be the same, byte for byte. The first drawn script where they aren't
is kept in the file `difference.script` of the folder in which this is run.
"""

import os
import subprocess
import sys
import tempfile
import time

HERE = os.path.dirname(os.path.abspath(__file__))
SCRIPTS = os.path.join(HERE, "scripts.py")
KEPT = "difference.script"
SECONDS = 120
LOADS = ["follower 38000", "follower 60000", "single 60000", "asks 100000", "asks 199999",
         "unsaved 60000 7", "unsaved 100000 3", "unsaved 199999 3", "unsaved 199999 7",
         "older 50000", "older 100000", "reads 30000", "reads 60000", "reads_follower 30000",
         "reads_follower 60000", "comments 20000"]
TIMES = 3


def outcome(program, script):
    """The exit status and the output of a program on the bytes of a script."""
    try:
        done = subprocess.run([program, "run"], input=script, stdout=subprocess.PIPE, timeout=SECONDS)
    except subprocess.TimeoutExpired:
        return "none", b"no end within %d seconds\n" % SECONDS
    return done.returncode, done.stdout


def first_difference(one, other):
    """The number of the first line that differs, and what stands there."""
    lines, others = one.split(b"\n"), other.split(b"\n")
    for number in range(max(len(lines), len(others))):
        pair = [part[number] if number < len(part) else b"(nothing)" for part in (lines, others)]
        if pair[0] != pair[1]:
            return number + 1, pair[0].decode("latin-1"), pair[1].decode("latin-1")
    return 0, "the same", "the same"


def differs(name, script, product, plain):
    """Compares both on a script, and shows where they differ."""
    one, other = outcome(product, script), outcome(plain, script)
    if one == other:
        return False
    number, line, expected = first_difference(one[1], other[1])
    print("%s: status %s and %s, line %d of the output" % (name, one[0], other[0], number))
    print("  product %s\n  plain   %s" % (line[:200], expected[:200]))
    return True


def compare_drawn(product, plain, first, last):
    from scripts import drawn
    statuses, lines = {}, 0
    for seed in range(first, last + 1):
        script = drawn(seed, plain)
        if differs("seed %d" % seed, script, product, plain):
            with open(KEPT, "wb") as file:
                file.write(script)
            raise SystemExit("the script is in %s" % KEPT)
        status = outcome(plain, script)[0]
        statuses[status] = statuses.get(status, 0) + 1
        lines += script.count(b"\n")
    print("%d scripts with %d lines, no difference" % (last - first + 1, lines))
    print("by status: %s" % ", ".join("%s: %d" % pair for pair in sorted(statuses.items())))


def compare_files(product, plain, files):
    for name in files:
        with open(name, "rb") as file:
            if not differs(name, file.read(), product, plain):
                print("%s: the same" % name)


def measured(program, path, output):
    """The seconds, the peak memory in KB and the exit status of one run."""
    with open(path, "rb") as script, open(output, "wb") as to:
        began = time.monotonic()
        run = subprocess.Popen([program, "run"], stdin=script, stdout=to)
        _, status, usage = os.wait4(run.pid, 0)
        took = time.monotonic() - began
        run.returncode = os.waitstatus_to_exitcode(status)
    return took, usage.ru_utime + usage.ru_stime, usage.ru_maxrss, run.returncode


def same_bytes(one, other):
    with open(one, "rb") as left, open(other, "rb") as right:
        while True:
            piece = left.read(1 << 16)
            if piece != right.read(1 << 16):
                return False
            if not piece:
                return True


def compare_loads(programs, loads):
    print("%-20s %10s %10s %10s %10s %10s %10s" % (
        ("load",) + ("product s", "cpu s", "MB") + ("plain s", "cpu s", "MB")))
    with tempfile.TemporaryDirectory() as folder:
        path = os.path.join(folder, "script")
        outputs = [os.path.join(folder, name) for name in ("product", "plain")]
        for load in loads:
            with open(path, "wb") as file:
                subprocess.run([sys.executable, SCRIPTS] + load.split(), stdout=file, check=True)
            row, statuses = [], []
            for program, output in zip(programs, outputs):
                runs = [measured(program, path, output) for _ in range(TIMES)]
                best = [min(column) for column in zip(*runs)]
                row += ["%.2f" % best[0], "%.2f" % best[1], "%.0f" % (best[2] / 1024)]
                statuses.append(best[3])
            equal = statuses[0] == statuses[1] and same_bytes(*outputs)
            note = "" if equal else "  DIFFERS, status %s and %s" % tuple(statuses)
            print("%-20s " % load + " ".join("%10s" % word for word in row) + note, flush=True)


def main(words):
    if len(words) < 3:
        raise SystemExit(__doc__)
    product, plain = map(os.path.abspath, words[:2])
    if words[2] == "--load":
        compare_loads([product, plain], words[3:] or LOADS)
    elif words[2] == "--file":
        compare_files(product, plain, words[3:])
    elif len(words) == 4:
        compare_drawn(product, plain, int(words[2]), int(words[3]))
    else:
        raise SystemExit(__doc__)


if __name__ == "__main__":
    main(sys.argv[1:])
