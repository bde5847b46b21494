/* The boxes of the evening over a storage and a chip that stop at any step: before it or after it, with the plug or by a kill, and lose what was not flushed,
   or part of it. A step can fail as well, another request can come in the middle of one, and a copy can be damaged. Every evening is played to its end. */
#include "evening.h"

#include <setjmp.h>
#include <stdio.h>
#include <stdlib.h>
#include <time.h>

typedef enum { NO_FAULT, CUT_BEFORE, CUT_AFTER, KILL_BEFORE, KILL_AFTER, FAIL, INTERRUPT } fault;
typedef enum { LOSE, KEEP, TEAR, ANY } loss;
typedef enum { UNDAMAGED, SPOILT_TAIL, PUT_BACK, NOT_SOUND } damage;

/* What the medium has, what the system shows, and where these may differ. */
typedef struct { uint8_t medium[PLACES][sizeof(record)], cache[PLACES][sizeof(record)]; bool dirty[PLACES]; } storage;

typedef struct {
    machine calls; /* first: a machine of this program is one of these */
    box box;
    storage storage[SLOTS];
    bool has_key[SLOTS], restarted, damaged[SLOTS];
    uint8_t key[SLOTS][MAHQURITH_KEY];
    int person;
} simulated;

static simulated boxes[BOXES];
static struct { long at; fault kind; } planned[2];
static struct { long steps, stops, fails, in[ASK_WHO + 2]; } count; /* in: the stops in each call, and in Start */
static int under_way;
static const char *const names[] = {"wake", "initialise", "activate", "new", "append", "append many", "read", "append and read", "finalise",
                                    "again", "who", "start"};
static long step, one_in; /* of the steps of this evening, one in so many has a fault by chance */
static loss losing;
static damage damaging;
static uint64_t chance, made;
static bool calm, has_reply;
static reply last_reply;
static jmp_buf off;
static const char *phase = "no faults";

void broken(const char *what) {
    printf("box: this does not hold: %s (%s, at step %ld of an evening)\n", what, phase, step);
    exit(1);
}

/* A generator of numbers by chance, the same in each run. */
static uint64_t draw(uint64_t below) {
    chance ^= chance << 13;
    chance ^= chance >> 7;
    chance ^= chance << 17;
    return (chance >> 11) % below;
}

static simulated *of(machine *m) { return (simulated *)m; }

/* FAULTS */

/* Of a copy any part may have come to the medium; the flip comes whole or not at all. */
static void cut(simulated *x) {
    for (int s = 0; s < SLOTS; s++)
        for (int p = 0; p < PLACES; p++) {
            storage *t = &x->storage[s];
            loss how = losing == ANY ? (loss)draw(3) : losing;
            size_t size = sizeof t->medium[p], kept = how == TEAR ? (p == FLIP ? draw(2) * size : draw(size + 1)) : 0;
            if (t->dirty[p] && how != LOSE)
                memcpy(t->medium[p], t->cache[p], how == KEEP ? size : kept);
            if (t->dirty[p] && how == TEAR && p != FLIP && draw(2) == 0)
                memcpy(t->medium[p] + kept, t->cache[p] + kept, size - kept);
            memcpy(t->cache[p], t->medium[p], size);
            t->dirty[p] = false;
        }
}

static uint64_t flip_of(const storage *t) {
    uint64_t number;
    memcpy(&number, t->medium[FLIP], sizeof number);
    return number;
}

/* Somebody at the medium: one bit of a tail, the copy before in the place of the one that counts, a record that no call makes. */
static void harm(simulated *x) {
    int s = (int)draw(SLOTS);
    storage *t = &x->storage[s];
    uint64_t number = flip_of(t);
    uint8_t *counts = t->medium[number % 2], *other = t->medium[(number + 1) % 2];
    if (damaging == UNDAMAGED || number < 2)
        return;
    x->damaged[s] = true;
    if (damaging == SPOILT_TAIL)
        counts[offsetof(record, rows[0].tail)] ^= 1;
    else if (damaging == PUT_BACK)
        memcpy(counts, other, sizeof(record));
    else {
        counts[offsetof(record, head.count)] = 200;
        mahqurith_sha256(counts, offsetof(record, check), counts + offsetof(record, check));
    }
    memcpy(t->cache, t->medium, sizeof t->cache);
    damaging = UNDAMAGED;
}

static _Noreturn void stop(simulated *x, bool plug) {
    count.stops++;
    count.in[under_way]++;
    if (plug) {
        cut(x);
        harm(x);
    }
    longjmp(off, 1);
}

/* Another request in the middle of one, on either slot, and then the plug. */
static void interrupt(simulated *x) {
    static const uint8_t label[MAHQURITH_LABEL] = "tour, cue edits";
    bool had = has_reply;
    reply before = last_reply;
    calm = true;
    for (int s = 0; s < SLOTS; s++) {
        request q = {.call = ASK_READ, .slot = (uint8_t)s};
        memcpy(q.asked.label, label, sizeof label);
        if (x->box.busy)
            box_answer(&x->box, &q);
    }
    calm = false;
    has_reply = had;
    last_reply = before;
}

static fault due(void) {
    if (calm)
        return NO_FAULT;
    step++;
    count.steps++;
    if (one_in > 0)
        return draw((uint64_t)one_in) > 0 ? NO_FAULT : (fault)(1 + draw(INTERRUPT));
    return step == planned[0].at ? planned[0].kind : step == planned[1].at ? planned[1].kind : NO_FAULT;
}

/* What is due at this step: it ends here where the box is stopped before it. */
static fault began(simulated *x) {
    fault f = due();
    if (f == INTERRUPT)
        interrupt(x);
    if (f == CUT_BEFORE || f == INTERRUPT)
        stop(x, true);
    if (f == KILL_BEFORE)
        stop(x, false);
    count.fails += f == FAIL;
    return f;
}

static bool ended(simulated *x, fault f) {
    if (f == CUT_AFTER)
        stop(x, true);
    if (f == KILL_AFTER)
        stop(x, false);
    return true;
}

/* STORAGE AND CHIP */

static bool written(machine *m, int s, int place, const void *bytes, size_t length) {
    storage *t = &of(m)->storage[s];
    fault f = began(of(m));
    memcpy(t->cache[place], bytes, length);
    t->dirty[place] = true;
    return f != FAIL && ended(of(m), f);
}

/* After one that failed the system shows what the medium has not, and holds it for flushed. */
static bool flushed(machine *m, int s) {
    storage *t = &of(m)->storage[s];
    fault f = began(of(m));
    for (int p = 0; p < PLACES; p++) {
        if (t->dirty[p] && f != FAIL)
            memcpy(t->medium[p], t->cache[p], sizeof t->medium[p]);
        t->dirty[p] = false;
    }
    return f != FAIL && ended(of(m), f);
}

static bool was_read(machine *m, int s, int place, void *bytes, size_t length) {
    fault f = began(of(m));
    memcpy(bytes, of(m)->storage[s].cache[place], length);
    return f != FAIL && ended(of(m), f);
}

static bool key_made(machine *m, int s) {
    fault f = began(of(m));
    if (f == FAIL)
        return false;
    made++;
    of(m)->has_key[s] = mahqurith_sha256((uint8_t *)&made, sizeof made, of(m)->key[s]) == MAHQURITH_ACCEPTED;
    return ended(of(m), f);
}

static bool key_erased(machine *m, int s) {
    fault f = began(of(m));
    if (f == FAIL)
        return false;
    of(m)->has_key[s] = false;
    return ended(of(m), f);
}

/* The evidence and the signature of this test: nobody else makes any. */
static void tag(uint8_t kind, const uint8_t key[MAHQURITH_KEY], const uint8_t *bytes, size_t length, uint8_t twice[SIGNATURE]) {
    uint8_t hashed[1 + MAHQURITH_KEY + MAHQURITH_FINALISED] = {kind};
    memcpy(hashed + 1, key, MAHQURITH_KEY);
    memcpy(hashed + 1 + MAHQURITH_KEY, bytes, length);
    mahqurith_sha256(hashed, 1 + MAHQURITH_KEY + length, twice);
    memcpy(twice + MAHQURITH_DIGEST, twice, MAHQURITH_DIGEST);
}

static bool key_given(machine *m, int s, uint8_t key[MAHQURITH_KEY], uint8_t evidence[EVIDENCE]) {
    fault f = began(of(m));
    memcpy(key, of(m)->key[s], MAHQURITH_KEY);
    tag('e', key, key, 0, evidence);
    return ended(of(m), f) && of(m)->has_key[s];
}

static bool was_signed(machine *m, int s, const uint8_t *bytes, size_t length, uint8_t signature[SIGNATURE]) {
    fault f = began(of(m));
    if (f == FAIL || !of(m)->has_key[s])
        return false;
    note(of(m)->key[s], bytes, length);
    tag('s', of(m)->key[s], bytes, length, signature);
    return ended(of(m), f);
}

bool is_good(const uint8_t key[MAHQURITH_KEY], const uint8_t *bytes, size_t length, const uint8_t signature[SIGNATURE]) {
    uint8_t expected[SIGNATURE];
    tag('s', key, bytes, length, expected);
    return memcmp(expected, signature, SIGNATURE) == 0;
}

bool is_genuine(const uint8_t key[MAHQURITH_KEY], const uint8_t evidence[EVIDENCE]) {
    uint8_t expected[EVIDENCE];
    tag('e', key, key, 0, expected);
    return memcmp(expected, evidence, EVIDENCE) == 0;
}

static bool found_valid(machine *m, const uint8_t key[MAHQURITH_KEY], const uint8_t *bytes, size_t length, const uint8_t signature[SIGNATURE]) {
    fault f = began(of(m));
    if (meddled != NULL)
        *meddled = MAHQURITH_ATTESTED | MAHQURITH_VALID;
    return ended(of(m), f) && is_good(key, bytes, length, signature);
}

static bool found_attested(machine *m, const uint8_t key[MAHQURITH_KEY], const uint8_t evidence[EVIDENCE]) {
    return ended(of(m), began(of(m))) && is_genuine(key, evidence);
}

static int person(machine *m) { return of(m)->person; }

static void told(machine *m, const char *what) { (void)m, (void)what; }

/* One that fails is lost on the way. Nothing can be signed once a farewell is out. */
static bool sent(machine *m, int s, const reply *r) {
    fault f = began(of(m));
    mahqurith_statement_read statement = mahqurith_read_statement(r->bytes, MAHQURITH_HANDOVER);
    if (r->length >= MAHQURITH_HANDOVER && statement.number == MAHQURITH_ACCEPTED && statement.statement.kind == MAHQURITH_FINALISE && of(m)->has_key[s])
        broken("a farewell is sent only when the chip has no key");
    if (f != FAIL) {
        has_reply = true;
        last_reply = *r;
    }
    return ended(of(m), f);
}

/* THE WORLD OF THE EVENING */

/* Starts a box until it has started; a start is stopped like any call. */
static void start(simulated *x) {
    for (volatile bool up = false; !up;) {
        x->restarted = true;
        under_way = ASK_WHO + 1;
        if (setjmp(off) != 0)
            continue;
        box_start(&x->box, &x->calls);
        up = !x->box.stopped;
        if (!up)
            cut(x);
    }
    for (int s = 0; s < SLOTS; s++)
        if (x->box.slots[s].state == EMPTY && x->has_key[s])
            broken("no key stays where the record is gone");
}

bool carry(int i, const request *q, reply *r) {
    simulated *x = &boxes[i];
    has_reply = false;
    under_way = q->call;
    if (setjmp(off) != 0)
        start(x);
    else {
        box_answer(&x->box, q);
        if (x->box.stopped) {
            cut(x);
            start(x);
        }
    }
    *r = last_reply;
    return has_reply;
}

bool has_restarted(int i) {
    bool restarted = boxes[i].restarted;
    boxes[i].restarted = false;
    return restarted;
}

void turn(int i, int position) { boxes[i].person = position; }

bool may_be_lost(int i, int s) { return boxes[i].damaged[s]; }

bool can_spoil(void) { return true; }

void spoil(int i, int s) { boxes[i].box.slots[s].record.head.count = 200; }

/* THE TEST */

static const machine table = {written, flushed, was_read, key_made, key_erased, key_given, was_signed, found_valid, found_attested, person, told, sent};

static long played(uint64_t seed, loss l, damage d) {
    chance = 0x9e3779b97f4a7c15 * (seed + 1);
    losing = l;
    damaging = d;
    step = 0;
    memset(boxes, 0, sizeof boxes);
    for (int i = 0; i < BOXES; i++) {
        boxes[i].calls = table;
        start(&boxes[i]);
    }
    evening();
    return step;
}

static void plan(long at, fault kind, long then, fault next) {
    planned[0].at = at;
    planned[0].kind = kind;
    planned[1].at = then;
    planned[1].kind = next;
}

static void by_chance(long evenings) {
    phase = "faults by chance";
    for (long n = 0; n < evenings; n++) {
        one_in = 6 + n % 60;
        played((uint64_t)n, ANY, UNDAMAGED);
    }
    one_in = 0;
}

/* Each kind of fault at each step of the evening. */
static void one_by_one(long steps) {
    phase = "one fault";
    for (long at = 1; at <= steps; at++)
        for (fault f = CUT_BEFORE; f <= INTERRUPT; f++)
            for (loss l = LOSE; l <= (f == CUT_BEFORE || f == CUT_AFTER ? TEAR : LOSE); l++) {
                plan(at, f, 0, NO_FAULT);
                played((uint64_t)at, l, UNDAMAGED);
            }
}

/* A second stop soon after the first: what a program that was killed left in the system's cache is cut, a start is cut. */
static void in_pairs(long steps, long within) {
    phase = "two stops";
    for (long at = 1; at <= steps; at++)
        for (long then = 1; then <= within; then++) {
            plan(at, at % 2 == 0 ? CUT_AFTER : KILL_AFTER, at + then, CUT_BEFORE);
            played((uint64_t)(at * within + then), ANY, UNDAMAGED);
        }
}

static void damaged(long steps, long every) {
    phase = "a damaged copy";
    for (long at = 1; at <= steps; at += every)
        for (damage d = SPOILT_TAIL; d <= NOT_SOUND; d++) {
            plan(at, CUT_AFTER, 0, NO_FAULT);
            played((uint64_t)at, LOSE, d);
        }
}

/* Enough stops, and some in every call. */
static bool counted(void) {
    bool enough = count.stops >= 10000;
    printf("box: %ld stops:", count.stops);
    for (int i = 0; i <= ASK_WHO + 1; i++) {
        printf(" %s %ld%s", names[i], count.in[i], i <= ASK_WHO ? "," : "\n");
        enough = enough && count.in[i] > 0;
    }
    return enough;
}

int main(void) {
    long steps = played(0, LOSE, UNDAMAGED);
    damaged(steps, 3);
    by_chance(250);
    one_by_one(steps);
    in_pairs(steps, 4);
    printf("box: %ld steps an evening; %ld failed in %ld; every evening came to its end (%.1f s of CPU)\n", steps, count.fails, count.steps,
           (double)clock() / CLOCKS_PER_SEC);
    if (counted())
        return 0;
    printf("box: these are fewer than 10,000, or a call was never stopped\n");
    return 2;
}
