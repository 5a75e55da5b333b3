"""A program whose allocations are refused: by a small library that stands before the C library's allocator.

Only the calls of the program itself are counted and refused, not those that the C library makes for its own ends.
"""

import os
import pathlib
import shutil
import subprocess

SOURCE = r"""
#define _GNU_SOURCE
#include <dlfcn.h>
#include <errno.h>
#include <stdlib.h>
#include <sys/auxv.h>
#include <unistd.h>
extern void *__libc_malloc(size_t);
extern void *__libc_realloc(void *, size_t);
static void *program;
static long first, last, count;
static int told;

__attribute__((constructor)) static void begin(void) {
    Dl_info info;
    if (dladdr((void *)getauxval(AT_ENTRY), &info)) program = info.dli_fbase;
    first = atol(getenv("REFUSE_FIRST"));
    last = atol(getenv("REFUSE_LAST"));
    told = atoi(getenv("REFUSE_TOLD"));
}

static int refused(void *caller) {
    Dl_info info;
    if (!dladdr(caller, &info) || info.dli_fbase != program) return 0;
    long number = __atomic_add_fetch(&count, 1, __ATOMIC_SEQ_CST);
    if (number < first || number > last) return 0;
    if (number == first && write(told, "r", 1) != 1) abort();
    errno = ENOMEM;
    return 1;
}

void *malloc(size_t size) {
    return refused(__builtin_return_address(0)) ? 0 : __libc_malloc(size);
}

void *realloc(void *old, size_t size) {
    return refused(__builtin_return_address(0)) ? 0 : __libc_realloc(old, size);
}
"""


def library(folder):
    """The library, compiled into a folder; none where there is no compiler."""
    compiler = shutil.which("cc") or shutil.which("gcc") or shutil.which("clang")
    if not compiler:
        return None
    source, made = pathlib.Path(folder) / "refusing.c", pathlib.Path(folder) / "refusing.so"
    source.write_text(SOURCE)
    flags = ["-O1", "-fno-optimize-sibling-calls", "-fno-builtin", "-shared", "-fPIC"]
    subprocess.run([compiler, *flags, "-o", made, source], check=True)
    return made


def run_refusing(run, made, first, last):
    """Runs with the allocations from the first to the last number refused: its end, and whether it came so far."""
    reads, writes = os.pipe()
    settings = {"LD_PRELOAD": made, "REFUSE_FIRST": first, "REFUSE_LAST": last, "REFUSE_TOLD": writes}
    try:
        ended = run(env={**os.environ, **{key: str(value) for key, value in settings.items()}}, pass_fds=[writes])
    finally:
        os.close(writes)
    with os.fdopen(reads, "rb") as told:
        return ended, told.read() != b""
