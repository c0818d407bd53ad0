"""What the scripts beside this file share that refuse a growth: a program is run with a library before the C library."""

import os
import subprocess
import sys

from scratch import output_of, stop

# It goes before the C library. It refuses the growth of one number, counted from 1. How many there were stands in a file from the
# first one on, so that it can be read while the program runs, and however that ends.
REFUSING = """
#define _GNU_SOURCE
#include <dlfcn.h>
#include <fcntl.h>
#include <stdlib.h>
#include <sys/mman.h>
#include <unistd.h>

static long own, refused, *made;

/* Before the program, which may begin threads, or with the first growth of what is begun still earlier. */
__attribute__((constructor)) static void begin(void) {
    int file;
    void *room = MAP_FAILED;
    if (made) return;
    file = open(getenv("GROWTHS"), O_RDWR | O_CREAT | O_TRUNC, 0600);
    refused = atol(getenv("REFUSED_GROWTH"));
    if (file >= 0 && ftruncate(file, sizeof(long)) == 0)
        room = mmap(NULL, sizeof(long), PROT_READ | PROT_WRITE, MAP_SHARED, file, 0);
    made = room == MAP_FAILED ? &own : room;
    close(file);
}

static int is_refused(void) {
    if (!made) begin();
    return __atomic_add_fetch(made, 1, __ATOMIC_RELAXED) == refused;
}

void *malloc(size_t size) {
    static void *(*given)(size_t);
    if (!given) given = (void *(*)(size_t))dlsym(RTLD_NEXT, "malloc");
    return is_refused() ? NULL : given(size);
}

void *realloc(void *old, size_t size) {
    static void *(*given)(void *, size_t);
    if (!given) given = (void *(*)(void *, size_t))dlsym(RTLD_NEXT, "realloc");
    return is_refused() ? NULL : given(old, size);
}
"""


def built_refusing(room):
    """The library that refuses a growth."""
    source, library = room / "refusing.c", room / "refusing.so"
    source.write_text(REFUSING, encoding="utf-8")
    status, said = output_of(["cc", "-shared", "-fPIC", "-o", str(library), str(source), "-ldl"], room)
    if status:
        stop(f"the library that refuses growths is not built:\n{said[-2000:]}")
    return library


def refusing(room, library, number):
    """The environment in which a program has the growth of this number refused (none: 0)."""
    return {**os.environ, "LD_PRELOAD": str(library), "REFUSED_GROWTH": str(number), "GROWTHS": str(room / "growths")}


def run_refusing(words, room, library, number, given=b""):
    """Runs a command with the growth of this number refused (none: 0), over these bytes: what became of it."""
    # From a file: a pipe gives them in pieces, which differ from run to run, and with them how many growths there are.
    (room / "given").write_bytes(given)
    with open(room / "given", "rb") as source:
        return subprocess.run(words, stdin=source, cwd=room, env=refusing(room, library, number), capture_output=True, timeout=60, check=False)


def growths_made(room):
    """How many growths the last run has made so far."""
    return int.from_bytes((room / "growths").read_bytes(), sys.byteorder)
