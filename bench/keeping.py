"""A folder in which the built program keeps files, and a library by which calls of the C library fail or are
counted."""
import contextlib
import glob
import os
import shutil
import subprocess
import sys

from measure import Folder

# The CALL of each name fails with NUMBER at its turn COUNT, or at every second turn where COUNT is 0. COUNTED is the
# file that gets, at the end, how often it was called. Where SECRET is there the call doesn't fail: just before it each
# new file in FOLDER is swapped for a link to SECRET.
FAILING = r"""
#define _GNU_SOURCE
#include <dirent.h>
#include <dlfcn.h>
#include <errno.h>
#include <fcntl.h>
#include <stdarg.h>
#include <stdio.h>
#include <stdlib.h>
#include <string.h>
#include <sys/stat.h>
#include <unistd.h>
static long turns;
static void swap(const char *folder, const char *secret) {
    char path[4096];
    struct dirent *entry;
    DIR *names = opendir(folder);
    while (names && (entry = readdir(names))) {
        if (strncmp(entry->d_name, ".alpha-keep", 11)) continue;
        snprintf(path, sizeof path, "%s/%s", folder, entry->d_name);
        if (!unlink(path)) symlink(secret, path);
    }
    if (names) closedir(names);
}
static int fails(const char *name) {
    const char *call = getenv("CALL");
    if (!call || strcmp(call, name)) return 0;
    long count = atol(getenv("COUNT"));
    turns += 1;
    if (count ? turns != count : turns % 2 == 0) return 0;
    if (getenv("SECRET")) { swap(getenv("FOLDER"), getenv("SECRET")); return 0; }
    errno = atoi(getenv("NUMBER"));
    return 1;
}
__attribute__((destructor)) static void told(void) {
    const char *counted = getenv("COUNTED");
    FILE *file = counted ? fopen(counted, "w") : NULL;
    if (file) { fprintf(file, "%ld", turns); fclose(file); }
}
#define REAL(type, name) static type (*real)(); if (!real) real = dlsym(RTLD_NEXT, name)
int getentropy(void *to, size_t n) { REAL(int, "getentropy"); return fails("getentropy") ? -1 : real(to, n); }
int futimens(int fd, const struct timespec *to) { REAL(int, "futimens"); return fails("futimens") ? -1 : real(fd, to); }
ssize_t read(int fd, void *to, size_t n) { REAL(ssize_t, "read"); return fails("read") ? -1 : real(fd, to, n); }
ssize_t write(int fd, const void *from, size_t n) {
    REAL(ssize_t, "write"); return fails("write") ? -1 : real(fd, from, n); }
int fsync(int fd) { REAL(int, "fsync"); return fails("fsync") ? -1 : real(fd); }
int fchmod(int fd, mode_t mode) { REAL(int, "fchmod"); return fails("fchmod") ? -1 : real(fd, mode); }
int chown(const char *path, uid_t owner, gid_t group) {
    REAL(int, "chown");
    return fails("chown") ? -1 : real(path, owner, group);
}
int rename(const char *from, const char *to) { REAL(int, "rename"); return fails("rename") ? -1 : real(from, to); }
int statx(int fd, const char *path, int flags, unsigned mask, struct statx *to) {
    REAL(int, "statx");
    return fails("statx") ? -1 : real(fd, path, flags, mask, to);
}
int close(int fd) { REAL(int, "close"); int done = real(fd); return fails("close") ? -1 : done; }
int open(const char *path, int flags, ...) {
    REAL(int, "open");
    va_list rest;
    va_start(rest, flags);
    mode_t mode = flags & O_CREAT ? va_arg(rest, mode_t) : 0;
    va_end(rest);
    return fails("open") ? -1 : real(path, flags, mode);
}
"""
SOURCE = b"start: lda $0,1($31)\n callsys\n .entry start\n"
OLD = b"the old file\n"


class Trial(Folder):
    """A folder with a source, what its image is, and what went wrong so far."""

    def __init__(self, program, folder):
        super().__init__(folder)
        self.program, self.wrong, self.library = program, 0, None
        self.source, self.out = self.keep("a.s", SOURCE), self.path("out")
        if self.asm().returncode:
            sys.exit(f"{program} doesn't assemble")
        self.new = self.read(self.out)

    def read(self, path):
        try:
            with open(path, "rb") as file:
                return file.read()
        except FileNotFoundError:
            return None

    def old_out(self):
        self.clear()
        self.keep("out", OLD)

    def clear(self):
        for file in [self.out, *self.left()]:
            with contextlib.suppress(FileNotFoundError):
                os.remove(file)

    def left(self):
        return glob.glob(os.path.join(glob.escape(self.folder), ".alpha-keep-*"))

    def run(self, *words, **how):
        return subprocess.run([self.program, *words], stdout=subprocess.PIPE, stderr=subprocess.PIPE, **how)

    def asm(self, out=None, **how):
        return self.run("asm", self.source, out or self.out, **how)

    def failing(self, call, count, number, counted=None):
        names = {"LD_PRELOAD": self.library, "CALL": call, "COUNT": str(count), "NUMBER": str(number)}
        return {**os.environ, **names, **({"COUNTED": counted} if counted else {})}

    def check(self, what, good):
        if not good:
            self.wrong += 1
            print(f"WRONG: {what}")

    def check_out(self, what, status, old):
        """OUT is new exactly under status 0, and else what it was; no new file is left."""
        wanted = self.new if status == 0 else old
        self.check(f"{what}: status {status}, OUT isn't what it says", self.read(self.out) == wanted)
        self.check(f"{what}: {self.left()} left", not self.left())


def build(trial):
    compiler = shutil.which("cc") or shutil.which("gcc")
    if not compiler:
        print("left out: failing calls, interrupted calls and counted calls: there is no C compiler")
        return False
    source, trial.library = trial.keep("failing.c", FAILING.encode()), trial.path("failing.so")
    subprocess.run([compiler, "-w", "-shared", "-fPIC", "-o", trial.library, source, "-ldl"], check=True)
    return True
