"""Refuses one call of a program: a shim before the C library, which cc compiles. The calls are its growths of memory, or what it
does to its files."""
import mmap
import os
import struct
import subprocess

HEAD = r"""
#define _GNU_SOURCE
#include <dlfcn.h>
#include <errno.h>
#include <fcntl.h>
#include <link.h>
#include <stdint.h>
#include <stdlib.h>
#include <sys/mman.h>

static uint64_t *shared, refused;

__attribute__((constructor)) static void start(void) {
    int file = open(getenv("COUNT_IN"), O_RDWR);
    refused = strtoull(getenv("REFUSED"), NULL, 10);
    shared = mmap(NULL, 8, PROT_READ | PROT_WRITE, MAP_SHARED, file, 0);
}

/* Counts a call, and tells whether it is the one that is refused. */
static int is_refused(void) {
    return shared && __atomic_add_fetch(shared, 1, __ATOMIC_SEQ_CST) == refused;
}
"""

GROWTHS = HEAD + r"""
static void *(*real)(size_t);
static uintptr_t begin, end;

/* The program comes first. */
static int place(struct dl_phdr_info *info, size_t size, void *data) {
    for (int i = 0; i < info->dlpi_phnum; i++) {
        const ElfW(Phdr) *it = &info->dlpi_phdr[i];
        if (it->p_type == PT_LOAD && (it->p_flags & PF_X)) {
            begin = info->dlpi_addr + it->p_vaddr;
            end = begin + it->p_memsz;
        }
    }
    return 1;
}

__attribute__((constructor)) static void look(void) {
    dl_iterate_phdr(place, NULL);
}

void *malloc(size_t size) {
    uintptr_t caller = (uintptr_t)__builtin_return_address(0);
    if (!real)
        real = dlsym(RTLD_NEXT, "malloc");
    if (begin <= caller && caller < end && is_refused()) {
        errno = ENOMEM;
        return NULL;
    }
    return real(size);
}
"""

WRITES = HEAD + r"""
#include <unistd.h>

#define OTHER(type, name, parameters, arguments, fault) \
    type name parameters { \
        type(*real) parameters = dlsym(RTLD_NEXT, #name); \
        if (is_refused()) { \
            errno = fault; \
            return -1; \
        } \
        return real arguments; \
    }

OTHER(ssize_t, pwrite, (int file, const void *bytes, size_t size, off_t place), (file, bytes, size, place), ENOSPC)
OTHER(int, ftruncate, (int file, off_t size), (file, size), EIO)
OTHER(int, fsync, (int file), (file), EIO)
OTHER(int, fdatasync, (int file), (file), EIO)
"""


class Shim:
    """A shim of these calls, and the count that it shares."""

    def __init__(self, folder, calls=GROWTHS):
        source, self.library = os.path.join(folder, "shim.c"), os.path.join(folder, "shim.so")
        with open(source, "w", encoding="ascii") as file:
            file.write(calls)
        subprocess.run(["cc", "-O2", "-shared", "-fPIC", "-o", self.library, source, "-ldl"], check=True)
        self.counts = os.path.join(folder, "count")
        with open(self.counts, "wb") as file:
            file.write(bytes(8))

    def environment(self, refused):
        with open(self.counts, "r+b") as file:
            file.write(bytes(8))
        return {"LD_PRELOAD": self.library, "COUNT_IN": self.counts, "REFUSED": str(refused)}

    def count(self):
        with open(self.counts, "r+b") as file, mmap.mmap(file.fileno(), 8) as shared:
            return struct.unpack("Q", shared[:8])[0]
