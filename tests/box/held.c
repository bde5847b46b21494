/* Linked into the box's process in the place of system calls (ld --wrap): what is written, renamed or removed is held in memory until it is flushed, so that
   a kill loses all that was not flushed, as the plug does. With FORGET set in the environment a flush forgets the flips: a disk that lies, to be noticed. */
#include <stdbool.h>
#include <stdint.h>
#include <stdlib.h>
#include <string.h>
#include <sys/types.h>

enum { HELD = 16, LONGEST = 20480, NAME = 16, FLIPPED = 8 };
typedef enum { WRITE, RENAME, REMOVE } deed;

/* A deed on a file, or on names of a folder. */
static struct { deed deed; int at; off_t offset; size_t length; uint8_t bytes[LONGEST]; char from[NAME], to[NAME]; } held[HELD];
static int count;

int __real_fsync(int file);
int __real_renameat(int folder, const char *from, int other, const char *to);
int __real_unlinkat(int folder, const char *name, int flags);
ssize_t __real_pread(int file, void *bytes, size_t length, off_t offset);
ssize_t __real_pwrite(int file, const void *bytes, size_t length, off_t offset);

static int hold(deed d, int at, const char *from, const char *to) {
    if (count == HELD)
        abort();
    held[count].deed = d;
    held[count].at = at;
    held[count].length = 0;
    strncpy(held[count].from, from, NAME - 1);
    strncpy(held[count].to, to, NAME - 1);
    return count++;
}

ssize_t __wrap_pwrite(int file, const void *bytes, size_t length, off_t offset) {
    int i = hold(WRITE, file, "", "");
    if (length > LONGEST)
        abort();
    held[i].offset = offset;
    held[i].length = length;
    memcpy(held[i].bytes, bytes, length);
    return (ssize_t)length;
}

/* The box writes its keys from the beginning of a file. */
ssize_t __wrap_write(int file, const void *bytes, size_t length) { return __wrap_pwrite(file, bytes, length, 0); }

/* A program sees what it has written: a place is always written whole. */
ssize_t __wrap_pread(int file, void *bytes, size_t length, off_t offset) {
    ssize_t got = __real_pread(file, bytes, length, offset);
    for (int i = 0; i < count; i++)
        if (held[i].deed == WRITE && held[i].at == file && held[i].offset == offset && held[i].length >= length) {
            memcpy(bytes, held[i].bytes, length);
            got = (ssize_t)length;
        }
    return got;
}

int __wrap_renameat(int folder, const char *from, int other, const char *to) {
    (void)other;
    hold(RENAME, folder, from, to);
    return 0;
}

int __wrap_unlinkat(int folder, const char *name, int flags) {
    (void)flags;
    hold(REMOVE, folder, name, "");
    return 0;
}

static bool is_done(int i) {
    switch (held[i].deed) {
    case WRITE: return __real_pwrite(held[i].at, held[i].bytes, held[i].length, held[i].offset) == (ssize_t)held[i].length;
    case RENAME: return __real_renameat(held[i].at, held[i].from, held[i].at, held[i].to) == 0;
    default: return __real_unlinkat(held[i].at, held[i].from, 0) == 0;
    }
}

int __wrap_fsync(int file) {
    int left = 0;
    bool forgets = getenv("FORGET") != NULL, done = true;
    for (int i = 0; i < count; i++)
        if (held[i].at != file)
            held[left++] = held[i];
        else if (!forgets || held[i].length != FLIPPED)
            done = is_done(i) && done;
    count = left;
    return done ? 0 : -1;
}
