"""What several of the tests beside this file need: their command line, the frames of bench, and a library in front of C's."""
import argparse
import importlib.util
import os
import subprocess
import sys

# Nothing that Python keeps of its modules is written into the repository.
sys.dont_write_bytecode = True

TOP = os.path.dirname(os.path.dirname(os.path.abspath(__file__)))
NATGW = os.environ.get("NATGW", os.path.join(TOP, "crates", "natgw", "out", "natgw"))

# Refuses growths of memory: all while the file REFUSING is there, or the one with the number in REFUSED, where 1 is the first.
# For each a byte goes to the file with the number in TOLD.
REFUSING = r"""
#define _GNU_SOURCE
#include <dlfcn.h>
#include <errno.h>
#include <stdlib.h>
#include <unistd.h>

static const char *sign;
static long left;
static int told;
static void *(*real_malloc)(size_t);
static void *(*real_calloc)(size_t, size_t);
static void *(*real_realloc)(void *, size_t);
static void *(*real_aligned)(size_t, size_t);

__attribute__((constructor)) static void begin(void) {
    real_malloc = dlsym(RTLD_NEXT, "malloc");
    real_calloc = dlsym(RTLD_NEXT, "calloc");
    real_realloc = dlsym(RTLD_NEXT, "realloc");
    real_aligned = dlsym(RTLD_NEXT, "aligned_alloc");
    told = atoi(getenv("TOLD"));
    if (getenv("REFUSED"))
        left = atol(getenv("REFUSED"));
    sign = getenv("REFUSING");
}

static int is_refused(void) {
    int is_counted = left > 0 && --left == 0;
    if (!is_counted && !(sign && access(sign, F_OK) == 0))
        return 0;
    if (write(told, "!", 1) != 1)
        abort();
    errno = ENOMEM;
    return 1;
}

void *malloc(size_t size) { return is_refused() ? NULL : real_malloc(size); }
void *calloc(size_t count, size_t size) { return is_refused() ? NULL : real_calloc(count, size); }
void *realloc(void *old, size_t size) { return is_refused() ? NULL : real_realloc(old, size); }
void *aligned_alloc(size_t step, size_t size) { return is_refused() ? NULL : real_aligned(step, size); }
int posix_memalign(void **at, size_t step, size_t size) {
    if (is_refused() || !(*at = real_aligned(step, size)))
        return ENOMEM;
    return 0;
}
"""


def program_of(about, built=NATGW):
    """The path of the program that the command line names, or of the built one. `--help` prints what the test is about."""
    words = argparse.ArgumentParser(usage=argparse.SUPPRESS, description=about, formatter_class=argparse.RawDescriptionHelpFormatter)
    words.add_argument("program", nargs="?", default=built, metavar="PROGRAM", help="(%(default)s)")
    return os.path.abspath(words.parse_args().program)


def built_program(about):
    """As `program_of`, of natgw, where it has to be there."""
    program = program_of(about)
    if not os.access(program, os.X_OK):
        sys.exit(f"{os.path.basename(sys.argv[0])}: there is no program {program}: './natgw --version' builds it")
    return program


def load_frames():
    """bench/measure.py, which makes packets and requests."""
    spec = importlib.util.spec_from_file_location("measure", os.path.join(TOP, "bench", "measure.py"))
    measure = importlib.util.module_from_spec(spec)
    spec.loader.exec_module(measure)
    return measure


def read_answer(frames, stream):
    """An answer frame, or what there is of one at the end."""
    head = stream.read(frames.ANSWER.size)
    if len(head) < frames.ANSWER.size:
        return head
    return head + stream.read(frames.ANSWER.unpack(head)[2])


def compiled(source, folder):
    """Compiles a library that stands in front of the C library's functions (LD_PRELOAD); its path."""
    text, library = os.path.join(folder, "front.c"), os.path.join(folder, "front.so")
    with open(text, "w", encoding="ascii") as file:
        file.write(source)
    subprocess.run([os.environ.get("CC", "cc"), "-O1", "-shared", "-fPIC", "-o", library, text, "-ldl"], check=True)
    return library
