/* The house: it has the boxes and the messenger as processes, pulls plugs, turns key switches, and sends errands to the messenger. */
#include "venue.h"

#include <fcntl.h>
#include <signal.h>
#include <sys/prctl.h>
#include <sys/stat.h>
#include <sys/wait.h>
#include <time.h>
#include <unistd.h>

static const char *box_program;
static pid_t boxes[HOUSE];

static const char *file_of(int box, const char *name) {
    static char path[64];
    snprintf(path, sizeof path, "box%d/%s", box, name);
    return path;
}

static void write_file(const char *path, const void *bytes, size_t length) {
    int file = open(path, O_WRONLY | O_CREAT | O_TRUNC | O_CLOEXEC, 0600);
    must(file >= 0 && write(file, bytes, length) == (ssize_t)length && close(file) == 0, "the house writes a file");
}

static pid_t start(const char *program, const char *folder) {
    pid_t house = getpid(), process = fork();
    must(process >= 0, "a process begins");
    if (process > 0)
        return process;
    prctl(PR_SET_PDEATHSIG, SIGKILL); /* the house closes, and all goes dark */
    if (getppid() != house)
        _exit(127);
    execl(program, program, folder, (char *)NULL);
    _exit(127);
}

static int reached(const char *path) {
    for (int n = 0; n < 10000; n++) {
        int wire = wire_to(path);
        if (wire >= 0)
            return wire;
        nanosleep(&(struct timespec){.tv_nsec = 1000000}, NULL);
    }
    must(false, "a process answers");
    return -1;
}

void plug(int box) {
    char folder[] = {'b', 'o', 'x', (char)('0' + box), 0};
    boxes[box] = start(box_program, folder);
    close(reached(file_of(box, "socket")));
}

void pull(int box) {
    must(kill(boxes[box], SIGKILL) == 0 && waitpid(boxes[box], NULL, 0) == boxes[box], "a plug is pulled");
    boxes[box] = 0;
}

void turn(int box, int person) { write_file(file_of(box, "switch"), (char[]){(char)('0' + person)}, 1); }

bool has_key(int box, int slot) { return access(file_of(box, slot == 0 ? "key0" : "key1"), F_OK) == 0; }

/* The maker puts its secret into each chip, and a person the maker's root into each box, the desk and the messenger. */
void house_opens(const char *box, const char *messenger, const char *folder, uint8_t root[MAHQURITH_KEY]) {
    const uint8_t maker[MAHQURITH_KEY] = "a maker's secret, for this show";
    box_program = box;
    must(chdir(folder) == 0 && maker_root(maker, root), "the house opens");
    for (int i = 0; i < HOUSE; i++) {
        mkdir((char[]){'b', 'o', 'x', (char)('0' + i), 0}, 0700);
        write_file(file_of(i, "maker"), maker, MAHQURITH_KEY);
        write_file(file_of(i, "root"), root, MAHQURITH_KEY);
        plug(i);
    }
    write_file("root", root, MAHQURITH_KEY);
    start(messenger, ".");
    close(reached("messenger"));
}

void read_key(int rack, int member, uint8_t key[MAHQURITH_KEY]) {
    static frame f;
    reply r;
    int wire = reached(file_of(box_of(rack, member), "socket"));
    request_written(&(request){.call = ASK_WHO, .slot = (uint8_t)rack}, &f);
    must(frame_sent(wire, &f) && frame_taken(wire, &f) && reply_read(&r, &f), "a box shows its key");
    close(wire);
    memcpy(key, r.key, MAHQURITH_KEY);
}

/* What the messenger answers is in nobody's trust: a pile that is not one is an empty one. */
pile errand(uint8_t kind, int rack, int member, const request *q) {
    static frame f;
    pile p = {0};
    int wire = reached("messenger");
    frame head = {.length = 3, .bytes = {kind, (uint8_t)rack, (uint8_t)member}};
    request_written(q, &f);
    bool good = frame_sent(wire, &head) && frame_sent(wire, &f) && frame_taken(wire, &head) && head.length == 1 && head.bytes[0] <= BOXES;
    for (size_t count = good ? head.bytes[0] : 0; p.count < count && good; p.count++) {
        voice *v = &p.voices[p.count];
        good = frame_taken(wire, &head) && head.length == 2 && frame_taken(wire, &f) && reply_read(&v->reply, &f);
        v->member = head.bytes[0];
        v->position = head.bytes[1];
    }
    close(wire);
    return good ? p : (pile){0};
}
