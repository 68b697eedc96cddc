"""Runs the program on scripts with one allocation after another refused.

    python3 tools/refused/refused.py PROGRAM MOST SCRIPT..

For each script and each number from 1 to MOST the program runs twice: once that allocation alone is
refused, and once each one from it on. Each run has to end with status 8 and a front of what the
program writes where nothing is refused, or with the status and all of that. Needs a C compiler, `cc`,
and a C library whose own `malloc` is `__libc_malloc`, as that of GNU. No part of the gate.
"""

import os
import subprocess
import sys
import tempfile

SECONDS = 60

# Loaded before the program: its allocation number REFUSED is refused, counted from 1; where REFUSED
# begins with a plus, so is each one after it. Only those count that the program's own file asks for.
SHIM = r"""
#define _GNU_SOURCE
#include <dlfcn.h>
#include <link.h>
#include <stdint.h>
#include <stdlib.h>

static long number = 0, made = 0;
static int and_later = 0, begun = 0;
static uintptr_t low = 0, high = 0;

/* The first object in the list is the program's own file. */
static int see(struct dl_phdr_info *info, size_t size, void *unused) {
    (void)size; (void)unused;
    for (int i = 0; i < info->dlpi_phnum; i++) {
        const ElfW(Phdr) *part = &info->dlpi_phdr[i];
        if (part->p_type != PT_LOAD) continue;
        uintptr_t from = info->dlpi_addr + part->p_vaddr;
        if (low == 0 || from < low) low = from;
        if (from + part->p_memsz > high) high = from + part->p_memsz;
    }
    return 1;
}

static void begin(void) {
    const char *text = getenv("REFUSED");
    begun = 1;
    dl_iterate_phdr(see, 0);
    if (text == 0) return;
    and_later = text[0] == '+';
    number = strtol(text + and_later, 0, 10);
}

/* Whether this allocation is to be refused. */
static int is_refused(void *caller) {
    if (!begun) begin();
    uintptr_t at = (uintptr_t)caller;
    if (number == 0 || at < low || at >= high) return 0;
    made++;
    return made == number || (and_later && made > number);
}

extern void *__libc_malloc(size_t), *__libc_calloc(size_t, size_t), *__libc_realloc(void *, size_t);
extern void *__libc_memalign(size_t, size_t);

void *malloc(size_t size) {
    return is_refused(__builtin_return_address(0)) ? 0 : __libc_malloc(size);
}
void *calloc(size_t count, size_t size) {
    return is_refused(__builtin_return_address(0)) ? 0 : __libc_calloc(count, size);
}
void *realloc(void *old, size_t size) {
    return is_refused(__builtin_return_address(0)) ? 0 : __libc_realloc(old, size);
}
void *aligned_alloc(size_t align, size_t size) {
    return is_refused(__builtin_return_address(0)) ? 0 : __libc_memalign(align, size);
}
int posix_memalign(void **into, size_t align, size_t size) {
    if (is_refused(__builtin_return_address(0))) return 12;
    *into = __libc_memalign(align, size);
    return *into == 0 ? 12 : 0;
}
"""


def run(program, script, shim=None, refused=None):
    """The status and the output of the program on the bytes of a script."""
    env = dict(os.environ)
    if shim is not None:
        env.update(LD_PRELOAD=shim, REFUSED=refused)
    done = subprocess.run([program, "run"], input=script, stdout=subprocess.PIPE, env=env, timeout=SECONDS)
    return done.returncode, done.stdout


def judged(given, whole):
    """What a run gave: `all`, `front`, or what is wrong with it."""
    if given == whole:
        return "all"
    if given[0] != 8:
        return "wrong: status %s" % given[0]
    if not whole[1].startswith(given[1]):
        return "wrong: no front of the output"
    return "front"


def main():
    program, most, scripts = sys.argv[1], int(sys.argv[2]), sys.argv[3:]
    wrong = 0
    with tempfile.TemporaryDirectory() as folder:
        shim = os.path.join(folder, "refuse.so")
        subprocess.run(["cc", "-O1", "-shared", "-fPIC", "-x", "c", "-o", shim, "-"], input=SHIM.encode(), check=True)
        for path in scripts:
            with open(path, "rb") as file:
                script = file.read()
            whole = run(program, script)
            counts = {"all": 0, "front": 0}
            for number in range(1, most + 1):
                for refused in ("%d" % number, "+%d" % number):
                    found = judged(run(program, script, shim, refused), whole)
                    if found in counts:
                        counts[found] += 1
                    else:
                        wrong += 1
                        print("%s, refused %s: %s" % (path, refused, found))
            print("%s: %d ended with status 8, %d as if nothing were refused" % (path, counts["front"], counts["all"]))
    sys.exit(1 if wrong else 0)


main()
