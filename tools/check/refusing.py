"""Runs docd while its requests for memory are counted, and some of them are refused. Needs the kit: its compiler and C library
make the library that is loaded into docd."""
import os
import subprocess
import sys
import tempfile
from collections import namedtuple

from kit import part

# Counts the requests, and refuses those whose numbers REFUSE gives. It writes into the file COUNTED how many there were, with
# those that were refused: at each refusal, since a program that crashes because of it writes nothing more, and at the end.
SHIM = r"""
/* The kit has no headers. */
typedef unsigned long size_t;
void *dlsym(void *, const char *);
char *getenv(const char *);
long strtol(const char *, char **, int);
int open(const char *, int, ...);
long write(int, const void *, size_t);

static void *const RTLD_NEXT = (void *)-1L;
static const int O_WRONLY = 1;

static long requests, first = -1, second;

__attribute__((destructor)) static void tell(void) {
    const char *path = getenv("COUNTED");
    int file = path ? open(path, O_WRONLY) : -1;
    char text[24];
    long place = sizeof text, rest = requests;
    do text[--place] = '0' + rest % 10; while (rest /= 10);
    if (file >= 0 && write(file, text + place, sizeof text - place) < 0) __builtin_trap();
}

static int refuses(void) {
    if (first < 0) {
        const char *numbers = getenv("REFUSE");
        char *rest = 0;
        first = numbers ? strtol(numbers, &rest, 10) : 0;
        second = rest ? strtol(rest, 0, 10) : 0;
    }
    requests++;
    if (requests != first && requests != second) return 0;
    tell();
    return 1;
}

void *malloc(size_t size) {
    static void *(*next)(size_t);
    if (!next) next = (void *(*)(size_t))dlsym(RTLD_NEXT, "malloc");
    return refuses() ? 0 : next(size);
}

void *realloc(void *old, size_t size) {
    static void *(*next)(void *, size_t);
    if (!next) next = (void *(*)(void *, size_t))dlsym(RTLD_NEXT, "realloc");
    return refuses() ? 0 : next(old, size);
}
"""

# The exit status, standard output's lines, standard error, and how many requests there were; if a signal ended the program, how
# many up to the last refusal.
Ran = namedtuple("Ran", "status said told requests")


class Refusing:
    """A program, and the folder with the library that is loaded into it. The folder is removed at the end of a `with` block."""

    def __init__(self, program):
        self.program, self.folder = program, tempfile.TemporaryDirectory()
        self.shim, self.counted = (os.path.join(self.folder.name, name) for name in ("shim.so", "counted"))
        kit = part("rtlib.py") or sys.exit("refusing: the command `rt` is not found: put the folder bin of the Rattle kit on the PATH")
        source, tools = os.path.join(self.folder.name, "shim.c"), os.path.join(kit.KIT, "toolchain")
        with open(source, "w", encoding="ascii") as file:
            file.write(SHIM)
        subprocess.run([os.path.join(tools, "bin", "clang"), "--target=x86_64-unknown-linux-gnu", "--no-default-config", "-shared", "-fPIC",
                        "-O1", "-nostdlib", "-fuse-ld=lld", "-o", self.shim, source, os.path.join(tools, "lib", "libc.so.6")], check=True)

    def __enter__(self):
        return self

    def __exit__(self, *fault):
        self.folder.cleanup()

    def run(self, script, numbers=()):
        """Runs a script and refuses the requests with these numbers: none, one, or two in ascending order."""
        open(self.counted, "w", encoding="ascii").close()
        env = dict(os.environ, LD_PRELOAD=self.shim, REFUSE=" ".join(map(str, numbers)), COUNTED=self.counted)
        done = subprocess.run([self.program, "run", "--hex"], input=script, capture_output=True, env=env)
        with open(self.counted, encoding="ascii") as file:
            requests = int(file.read() or 0)
        return Ran(done.returncode, done.stdout.splitlines(), done.stderr, requests)
