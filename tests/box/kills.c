/* The evening over boxes that are processes, which somebody kills at random, again and again: kills BOX FOLDER HOW-OFTEN. */
#include "evening.h"
#include "../../examples/box/chip.h"
#include "../../examples/box/wire.h"

#include <fcntl.h>
#include <pthread.h>
#include <signal.h>
#include <stdatomic.h>
#include <stdio.h>
#include <stdlib.h>
#include <sys/prctl.h>
#include <sys/stat.h>
#include <sys/wait.h>
#include <time.h>
#include <unistd.h>

static const char *program;
static pid_t processes[BOXES];
static atomic_int kills;
static int unanswered; /* requests that a kill came into */
static atomic_bool restarted[BOXES];
static bool ends;
static pthread_mutex_t gate = PTHREAD_MUTEX_INITIALIZER; /* between a start of all boxes and the kills */
static uint8_t root[MAHQURITH_KEY];

void broken(const char *what) {
    printf("box: this does not hold: %s (after %d kills)\n", what, atomic_load(&kills));
    exit(1);
}

static void must(bool holds, const char *what) {
    if (!holds)
        broken(what);
}

static void pause_for(long microseconds) { nanosleep(&(struct timespec){.tv_nsec = microseconds * 1000}, NULL); }

static const char *file_of(int i, const char *name) {
    static char path[64];
    snprintf(path, sizeof path, "box%d/%s", i, name);
    return path;
}

static void write_file(const char *path, const void *bytes, size_t length) {
    int file = open(path, O_WRONLY | O_CREAT | O_CLOEXEC, 0600);
    must(file >= 0 && write(file, bytes, length) == (ssize_t)length && close(file) == 0, "a file is written");
}

static void start(int i) {
    pid_t test = getpid();
    char folder[] = {'b', 'o', 'x', (char)('0' + i), 0};
    processes[i] = fork();
    must(processes[i] >= 0, "a process begins");
    if (processes[i] > 0)
        return;
    prctl(PR_SET_PDEATHSIG, SIGKILL); /* no box outlives the test, or keeps its output open */
    if (getppid() != test)
        _exit(127);
    dup2(STDERR_FILENO, STDOUT_FILENO);
    execl(program, program, folder, (char *)NULL);
    _exit(127);
}

static void kill_box(int i) {
    int status;
    kill(processes[i], SIGKILL);
    must(waitpid(processes[i], &status, 0) == processes[i], "a process ends");
    must(WIFSIGNALED(status), "no box ends by itself");
}

/* Somebody with a hand on the plug. */
static void *killer(void *often) {
    unsigned seed = 1;
    while (!ends) {
        pause_for(rand_r(&seed) % 12000);
        pthread_mutex_lock(&gate);
        int i = rand_r(&seed) % BOXES;
        if (processes[i] > 0 && kills < *(int *)often) {
            kill_box(i);
            start(i);
            restarted[i] = true;
            kills++;
        }
        pthread_mutex_unlock(&gate);
    }
    return NULL;
}

static int connected(int i) {
    for (int n = 0, wire; n < 40000; n++) {
        if ((wire = wire_to(file_of(i, "socket"))) >= 0)
            return wire;
        pause_for(500);
    }
    broken("a box that was killed starts again");
}

bool carry(int i, const request *q, reply *r) {
    static frame f;
    int wire = connected(i);
    request_written(q, &f);
    bool got = frame_sent(wire, &f) && frame_taken(wire, &f) && reply_read(r, &f);
    close(wire);
    unanswered += !got;
    return got;
}

bool has_restarted(int i) { return atomic_exchange(&restarted[i], false); }

void turn(int i, int person) { write_file(file_of(i, "switch"), (char[]){(char)('0' + person)}, 1); }

bool may_be_lost(int i, int s) { return i < 0 && s < 0; }

bool can_spoil(void) { return false; }

void spoil(int i, int s) { (void)i, (void)s; }

bool is_good(const uint8_t key[MAHQURITH_KEY], const uint8_t *bytes, size_t length, const uint8_t signature[SIGNATURE]) {
    return chip_valid(key, bytes, length, signature);
}

bool is_genuine(const uint8_t key[MAHQURITH_KEY], const uint8_t evidence[EVIDENCE]) { return chip_attested(root, key, evidence); }

/* New boxes from the maker, each in a folder of its own. */
static void delivered(void) {
    const uint8_t maker[MAHQURITH_KEY] = "a maker's secret, for this test";
    must(maker_root(maker, root), "the maker has a root");
    pthread_mutex_lock(&gate);
    for (int i = 0; i < BOXES; i++) {
        const char *old[] = {"slot0", "slot1", "key0", "key1", "key.new"};
        mkdir((char[]){'b', 'o', 'x', (char)('0' + i), 0}, 0700);
        for (size_t n = 0; n < sizeof old / sizeof *old; n++)
            unlink(file_of(i, old[n]));
        write_file(file_of(i, "maker"), maker, sizeof maker);
        write_file(file_of(i, "root"), root, sizeof root);
        start(i);
    }
    pthread_mutex_unlock(&gate);
}

static void taken_away(void) {
    pthread_mutex_lock(&gate);
    for (int i = 0; i < BOXES; i++) {
        kill_box(i);
        processes[i] = 0;
    }
    pthread_mutex_unlock(&gate);
}

int main(int count, char **words) {
    pthread_t hand;
    must(count == 4 && chdir(words[2]) == 0, "use: kills BOX FOLDER HOW-OFTEN");
    program = words[1];
    int often = atoi(words[3]), evenings = 0;
    must(pthread_create(&hand, NULL, killer, &often) == 0, "somebody is there");
    for (; kills < often; evenings++) {
        delivered();
        evening();
        taken_away();
    }
    ends = true;
    pthread_join(hand, NULL);
    must(unanswered > 0, "some kills come in the middle of a request");
    printf("box: killed %d times in %d evenings, %d of them in the middle of a request, and every evening came to its end\n", atomic_load(&kills), evenings,
           unanswered);
}
