/* The process of a box: box FOLDER. In the folder are the chip's inside, the storage of each slot, the key switch and the socket that the box answers on.
   It ends where it has to stop, with status 3; whoever looks after it switches it off and on. */
#include "chip.h"
#include "wire.h"

#include <fcntl.h>
#include <stdio.h>
#include <stdlib.h>
#include <sys/socket.h>
#include <sys/stat.h>
#include <sys/time.h>
#include <sys/un.h>
#include <unistd.h>

/* The flip has a sector of its own, and so has each copy a place of its own. */
enum { SECTOR = 4096, COPY = 2 * SECTOR, STORAGE = SECTOR + 2 * COPY };
_Static_assert(sizeof(record) <= COPY, "a copy has room");

typedef struct {
    machine calls; /* first: a machine of this program is one of these */
    int folder, storage[SLOTS], asker;
    uint8_t root[MAHQURITH_KEY];
} process;

static process *of(machine *m) { return (process *)m; }

static off_t offset_of(int place) { return place == FLIP ? 0 : SECTOR + (off_t)place * COPY; }

static bool storage_written(machine *m, int s, int place, const void *bytes, size_t length) {
    return pwrite(of(m)->storage[s], bytes, length, offset_of(place)) == (ssize_t)length;
}

static bool storage_flushed(machine *m, int s) { return fsync(of(m)->storage[s]) == 0; }

static bool storage_read(machine *m, int s, int place, void *bytes, size_t length) {
    return pread(of(m)->storage[s], bytes, length, offset_of(place)) == (ssize_t)length;
}

static bool made(machine *m, int s) { return chip_make(of(m)->folder, s); }

static bool erased(machine *m, int s) { return chip_erase(of(m)->folder, s); }

static bool key_given(machine *m, int s, uint8_t key[MAHQURITH_KEY], uint8_t evidence[EVIDENCE]) { return chip_key(of(m)->folder, s, key, evidence); }

static bool is_signed(machine *m, int s, const uint8_t *bytes, size_t length, uint8_t signature[SIGNATURE]) {
    return chip_sign(of(m)->folder, s, bytes, length, signature);
}

static bool is_valid(machine *m, const uint8_t key[MAHQURITH_KEY], const uint8_t *bytes, size_t length, const uint8_t signature[SIGNATURE]) {
    (void)m;
    return chip_valid(key, bytes, length, signature);
}

static bool is_attested(machine *m, const uint8_t key[MAHQURITH_KEY], const uint8_t evidence[EVIDENCE]) { return chip_attested(of(m)->root, key, evidence); }

/* The key switch is a file that a person at the box writes: one digit. */
static int person_there(machine *m) {
    char digit = '0';
    int file = openat(of(m)->folder, "switch", O_RDONLY);
    if (file >= 0 && read(file, &digit, 1) != 1)
        digit = '0';
    if (file >= 0)
        close(file);
    return digit == '1' ? SOMEBODY : digit == '2' ? GIVEN_UP : NOBODY;
}

static void person_told(machine *m, const char *what) {
    (void)m;
    fprintf(stderr, "box: %s\n", what);
}

/* An asker who is gone has no answer; he asks again. */
static bool is_sent(machine *m, int s, const reply *r) {
    static frame f;
    (void)s;
    reply_written(r, &f);
    if (!frame_sent(of(m)->asker, &f))
        shutdown(of(m)->asker, SHUT_RDWR);
    return true;
}

static void must(bool holds, const char *what) {
    if (holds)
        return;
    fprintf(stderr, "box: it stops: %s\n", what);
    exit(3);
}

/* A storage that is new is written full of zeros, so that later writes find their place. A cut before its end leaves a shorter one, which is new still. */
static int storage_opened(int folder, const char *name) {
    static const uint8_t zeros[STORAGE];
    struct stat found;
    int file = openat(folder, name, O_RDWR | O_CREAT, 0600);
    must(file >= 0 && fstat(file, &found) == 0, "the storage opens");
    if (found.st_size < STORAGE)
        must(pwrite(file, zeros, sizeof zeros, 0) == STORAGE && fsync(file) == 0 && fsync(folder) == 0, "the storage is made");
    return file;
}

static int listening(void) {
    struct sockaddr_un address = {.sun_family = AF_UNIX, .sun_path = "socket"};
    int ear = socket(AF_UNIX, SOCK_STREAM, 0);
    unlink(address.sun_path);
    must(ear >= 0 && bind(ear, (struct sockaddr *)&address, sizeof address) == 0 && listen(ear, 8) == 0, "the box listens");
    return ear;
}

/* Whoever is silent for a while is hung up on: others ask too. */
static int next_asker(int ear) {
    struct timeval patience = {.tv_sec = 10};
    int asker = accept(ear, NULL, NULL);
    must(asker >= 0 && setsockopt(asker, SOL_SOCKET, SO_RCVTIMEO, &patience, sizeof patience) == 0, "somebody asks");
    return asker;
}

static void root_read(process *p) {
    int file = openat(p->folder, "root", O_RDONLY);
    must(file >= 0 && read(file, p->root, MAHQURITH_KEY) == MAHQURITH_KEY, "a person has put the maker's root there");
    close(file);
}

int main(int count, char **words) {
    static box b;
    static frame f;
    static process p = {.calls = {storage_written, storage_flushed, storage_read, made, erased, key_given, is_signed, is_valid, is_attested,
                                  person_there, person_told, is_sent}};
    request q;
    must(count == 2 && chdir(words[1]) == 0, "use: box FOLDER");
    p.folder = open(".", O_RDONLY | O_DIRECTORY);
    must(p.folder >= 0, "the folder opens");
    root_read(&p);
    p.storage[0] = storage_opened(p.folder, "slot0");
    p.storage[1] = storage_opened(p.folder, "slot1");
    box_start(&b, &p.calls);
    must(!b.stopped, "a step of Start failed");
    for (int ear = listening();;) {
        p.asker = next_asker(ear);
        while (frame_taken(p.asker, &f) && request_read(&q, &f)) {
            box_answer(&b, &q);
            must(!b.stopped, "a step failed");
        }
        close(p.asker);
    }
}
