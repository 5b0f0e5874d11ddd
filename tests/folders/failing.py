"""A store that fails: the calls of the program on files of objects, of which some pass and the next ones fail."""
import mmap
import os
import struct
import subprocess

from lib.program import Program

# The calls below `objects`, `swept` and `segments`, by kinds. What is shared says which kinds count, how many pass, how many fail
# then, and how many were counted and failed.
KINDS = {name: 1 << at for at, name in enumerate(("open", "stat", "mkdir", "rename", "unlink", "read", "write", "list", "sync"))}
KINDS["all"] = sum(KINDS.values())
# Of writes the first one that fails writes half of its bytes, as on a disk that is full from then on.
FULL = {"full": 1 << len(KINDS)}
SHIM = r"""
#define _GNU_SOURCE
#include <dirent.h>
#include <dlfcn.h>
#include <errno.h>
#include <fcntl.h>
#include <stdarg.h>
#include <stdlib.h>
#include <string.h>
#include <sys/mman.h>
#include <sys/stat.h>
#include <unistd.h>

enum { OPEN = 1, STAT = 2, MKDIR = 4, RENAME = 8, UNLINK = 16, READ = 32, WRITE = 64, LIST = 128, SYNC = 256, FULL = 1024 };

static volatile long *cell;
static char ours[4096];

static int fails(int kind) {
    if (!cell || !(cell[0] & kind)) return 0;
    cell[3]++;
    if (cell[1] > 0) { cell[1]--; return 0; }
    if (cell[2] <= 0) return 0;
    cell[2]--;
    cell[4]++;
    errno = EIO;
    return 1;
}

static int is_ours(const char *path) {
    return path && (strstr(path, "/objects") || strstr(path, "/swept") || strstr(path, "/segments"));
}

static int has(int fd) { return fd >= 0 && fd < 4096 && ours[fd]; }

#define REAL(name, type, ...) static type (*real)(__VA_ARGS__) = 0; if (!real) real = dlsym(RTLD_NEXT, #name)

static int opened(const char *path, int fd) {
    if (fd >= 0 && fd < 4096) ours[fd] = is_ours(path);
    return fd;
}

int open(const char *path, int flags, ...) {
    REAL(open, int, const char *, int, ...);
    va_list rest;
    va_start(rest, flags);
    int mode = va_arg(rest, int);
    va_end(rest);
    return is_ours(path) && fails(OPEN) ? -1 : opened(path, real(path, flags, mode));
}

int openat(int at, const char *path, int flags, ...) {
    REAL(openat, int, int, const char *, int, ...);
    va_list rest;
    va_start(rest, flags);
    int mode = va_arg(rest, int);
    va_end(rest);
    return is_ours(path) && fails(OPEN) ? -1 : opened(path, real(at, path, flags, mode));
}

int close(int fd) {
    REAL(close, int, int);
    if (fd >= 0 && fd < 4096) ours[fd] = 0;
    return real(fd);
}

int statx(int at, const char *path, int flags, unsigned mask, struct statx *found) {
    REAL(statx, int, int, const char *, int, unsigned, struct statx *);
    return (is_ours(path) || (path && !*path && has(at))) && fails(STAT) ? -1 : real(at, path, flags, mask, found);
}

int mkdir(const char *path, mode_t mode) {
    REAL(mkdir, int, const char *, mode_t);
    return is_ours(path) && fails(MKDIR) ? -1 : real(path, mode);
}

int rename(const char *from, const char *to) {
    REAL(rename, int, const char *, const char *);
    return is_ours(to) && fails(RENAME) ? -1 : real(from, to);
}

int unlink(const char *path) {
    REAL(unlink, int, const char *);
    return is_ours(path) && fails(UNLINK) ? -1 : real(path);
}

ssize_t read(int fd, void *bytes, size_t size) {
    REAL(read, ssize_t, int, void *, size_t);
    return has(fd) && fails(READ) ? -1 : real(fd, bytes, size);
}

ssize_t pread64(int fd, void *bytes, size_t size, off_t at) {
    REAL(pread64, ssize_t, int, void *, size_t, off_t);
    return has(fd) && fails(READ) ? -1 : real(fd, bytes, size, at);
}

ssize_t write(int fd, const void *bytes, size_t size) {
    REAL(write, ssize_t, int, const void *, size_t);
    if (has(fd) && fails(FULL)) {
        errno = ENOSPC;
        return cell[4] == 1 && size > 1 ? real(fd, bytes, size / 2) : -1;
    }
    return has(fd) && fails(WRITE) ? -1 : real(fd, bytes, size);
}

int fsync(int fd) {
    REAL(fsync, int, int);
    return has(fd) && fails(SYNC) ? -1 : real(fd);
}

int fdatasync(int fd) {
    REAL(fdatasync, int, int);
    return has(fd) && fails(SYNC) ? -1 : real(fd);
}

ssize_t getdents64(int fd, void *bytes, size_t size) {
    REAL(getdents64, ssize_t, int, void *, size_t);
    return has(fd) && fails(LIST) ? -1 : real(fd, bytes, size);
}

__attribute__((constructor)) static void begin(void) {
    const char *path = getenv("CELL");
    int fd = path ? open(path, O_RDWR) : -1;
    if (fd < 0) return;
    void *shared = mmap(0, 4096, PROT_READ | PROT_WRITE, MAP_SHARED, fd, 0);
    if (shared != MAP_FAILED) cell = shared;
    close(fd);
}
"""


class Fuse:
    """What is shared with the program: it may be set, and put aside for a while."""

    def __init__(self, path):
        with open(path, "wb") as file:
            file.write(bytes(4096))
        with open(path, "r+b") as file:
            self.shared = mmap.mmap(file.fileno(), 4096)

    def set(self, kind, passes, fails):
        self.shared[:40] = struct.pack("5q", {**KINDS, **FULL}[kind], passes, fails, 0, 0)

    def counted(self):
        return struct.unpack("5q", self.shared[:40])[3]

    def failed(self):
        return struct.unpack("5q", self.shared[:40])[4]

    def aside(self, act):
        """Does this while no call counts."""
        kinds, self.shared[:8] = self.shared[:8], bytes(8)
        try:
            return act()
        finally:
            self.shared[:8] = kinds

    def off(self):
        self.shared[:40] = bytes(40)


class Failing(Program):
    """The program over calls that fail as its fuse says."""

    def __init__(self, given, work):
        super().__init__(given.path, given.more)
        shim, source, cell = (os.path.join(work, name) for name in ("shim.so", "shim.c", "cell"))
        with open(source, "w", encoding="ascii") as file:
            file.write(SHIM)
        subprocess.run(["cc", "-shared", "-fPIC", "-O1", "-o", shim, source, "-ldl"], check=True)
        self.fuse = Fuse(cell)
        self.words = ["env", f"LD_PRELOAD={shim}", f"CELL={cell}", self.path]

    def begun(self, *words, stdin=subprocess.PIPE, stdout=subprocess.PIPE):
        child = subprocess.Popen([*self.words, *self.given(*words)[1:]], stdin=stdin, stdout=stdout, stderr=subprocess.PIPE)
        self.running = [other for other in self.running if other.poll() is None] + [child]
        return child
