"""A library that is loaded before the system's and refuses a program one of its calls, or moves one byte a call."""
import os
import subprocess

# Counts the calls of the kind KIND, refuses the one with the number REFUSED, and writes their count to the file COUNT. Of the kind `bytes`
# none is refused, and each read or write moves one byte at most. Reads and writes are counted once a file is open: the loader's aren't seen.
SOURCE = r"""
#include <errno.h>
#include <stdio.h>
#include <stdlib.h>
#include <string.h>
#include <sys/syscall.h>
#include <unistd.h>

extern void *__libc_malloc(size_t);
extern void *__libc_realloc(void *, size_t);
static long count, refused = -1;
static char kind;

static void begin(void) {
  if (refused >= 0) return;
  const char *number = getenv("REFUSED"), *name = getenv("KIND");
  refused = number ? atol(number) : 0;
  kind = name ? name[0] : 0;
}

static int is_refused(char which) {
  begin();
  return kind == which && ++count == refused;
}

static size_t moved(size_t size) {
  begin();
  return kind == 'b' && size > 1 ? 1 : size;
}

void *malloc(size_t size) { return is_refused('m') ? NULL : __libc_malloc(size); }

void *realloc(void *block, size_t size) { return is_refused('m') ? NULL : __libc_realloc(block, size); }

ssize_t read(int file, void *into, size_t size) {
  if (is_refused('r')) {
    errno = EIO;
    return -1;
  }
  return syscall(SYS_read, file, into, moved(size));
}

ssize_t write(int file, const void *from, size_t size) {
  if (is_refused('w')) {
    errno = EIO;
    return -1;
  }
  return syscall(SYS_write, file, from, moved(size));
}

__attribute__((destructor)) static void tell(void) {
  const char *name = getenv("COUNT");
  char text[32];
  if (!name) return;
  long all = count;
  FILE *file = fopen(name, "w");
  kind = 0;
  if (file) {
    snprintf(text, sizeof text, "%ld", all);
    fputs(text, file);
    fclose(file);
  }
}
"""


class Refusing:
    """The library, built with `cc` in a folder."""

    def __init__(self, room):
        self.path, self.told = f"{room}/refusing.so", f"{room}/count"
        with open(f"{room}/refusing.c", "w", encoding="utf-8") as file:
            file.write(SOURCE)
        subprocess.run(["cc", "-O1", "-shared", "-fPIC", "-o", self.path, f"{room}/refusing.c"], check=True)

    def run(self, command, kind, number, **more):
        """Runs the command with the call of this number refused, 0 for none."""
        own = {"LD_PRELOAD": self.path, "KIND": kind, "REFUSED": str(number), "COUNT": self.told}
        return subprocess.run(command, env=os.environ | own, capture_output=True, check=False, **more)

    def count(self):
        """How many calls of its kind the last run made."""
        with open(self.told, encoding="utf-8") as file:
            return int(file.read())
