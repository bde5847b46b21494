/* One call of the library, or the hashing that it cannot do without, at a number of ledgers; of the store, at a number of used blocks.
   calls time CALL LEDGERS prints nanoseconds of the call and of the hashing, the best of many rounds that take turns; calls stack CALL LEDGERS prints the
   bytes of stack; calls once CALL LEDGERS and calls hash CALL LEDGERS run the one or the other once, inside `measured`, for callgrind. */
#define _GNU_SOURCE
#include "scene.h"

#include <pthread.h>
#include <stdio.h>
#include <stdlib.h>
#include <string.h>
#include <time.h>

enum { ROUNDS = 500, STACK = 1 << 20, PAINT = 0xa5, CHUNK = 508 };

static int ledgers;
static uint8_t shelf_before[MAHQURITH_STORE], shelf[MAHQURITH_STORE];
static struct rack first, second;
static struct box before, box;
static struct handover handover;
static uint8_t area[MAHQURITH_FINALISED], message[MAHQURITH_HASH_INPUT], digest[MAHQURITH_DIGEST];
static mahqurith_question question;
static uint8_t signers[2 * BOXES];
static uint32_t number;

static void settle(mahqurith_answer answer) { number = answer.number; }

/* A ledger that is there: the last one, which a search meets last. */
static mahqurith_asked last(void) { return about(ledgers > 0 ? ledgers - 1 : 0); }

static void wake(void) { settle(mahqurith_wake(&box.head, box.rows, MAHQURITH_ROWS, last())); }

static void found(void)
{
    settle(mahqurith_initialise(&box.head, box.rows, MAHQURITH_ROWS, last(), area, 0, area, 0, first.bytes, MAHQURITH_RACK, area,
                                sizeof area));
}

static void prepare(void)
{
    settle(mahqurith_initialise(&box.head, box.rows, MAHQURITH_ROWS, last(), handover.roll, handover.roll_length,
                                handover.previous.bytes, MAHQURITH_RACK, handover.own.bytes, MAHQURITH_RACK, area, sizeof area));
}

/* A ledger of the company that has none. */
static mahqurith_asked another(void)
{
    mahqurith_asked asked = about(ledgers);
    asked.label[0] = 128;
    return asked;
}

static void new_ledger(void) { settle(mahqurith_new(&box.head, box.rows, MAHQURITH_ROWS, another(), area, sizeof area)); }

static void append(void) { settle(mahqurith_append(&box.head, box.rows, MAHQURITH_ROWS, last(), area, sizeof area)); }

/* Twenty entries, by one call and by twenty. */
static void append_many(void)
{
    settle(mahqurith_append_many(&box.head, box.rows, MAHQURITH_ROWS, last(), message, TWENTY * MAHQURITH_DIGEST, area, sizeof area));
}

static void append_twenty(void)
{
    mahqurith_asked asked = last();
    for (int i = 0; i < TWENTY; i++, asked.expected++)
        settle(mahqurith_append(&box.head, box.rows, MAHQURITH_ROWS, asked, area, sizeof area));
}

static void read_ledger(void) { settle(mahqurith_read(&box.head, box.rows, MAHQURITH_ROWS, last(), area, sizeof area)); }

static void append_and_read(void)
{
    settle(mahqurith_append_and_read(&box.head, box.rows, MAHQURITH_ROWS, last(), area, sizeof area));
}

static void finalise(void)
{
    settle(mahqurith_finalise(&box.head, box.rows, MAHQURITH_ROWS, second.bytes, MAHQURITH_RACK, area, sizeof area));
}

static void activate(void)
{
    settle(mahqurith_activate(&box.head, box.rows, MAHQURITH_ROWS, handover.previous.bytes, MAHQURITH_RACK, handover.own.bytes,
                              MAHQURITH_RACK, handover.bundle, handover.length));
}

static void make(void) { number = make_bundle(&handover); }

static void bytes_to_check(void)
{
    settle(mahqurith_bytes_to_check(&box.head, box.rows, MAHQURITH_ROWS, last(), handover.previous.bytes, MAHQURITH_RACK,
                                    handover.own.bytes, MAHQURITH_RACK, handover.bundle, handover.length, area, sizeof area));
}

static void verdict(void)
{
    number = mahqurith_verdict(question, first.bytes, MAHQURITH_RACK, area, MAHQURITH_RECEIPT, signers, sizeof signers).number;
}

/* One label's heights from 1 on; all texts have their greatest length. */
static mahqurith_place place_of(int height)
{
    mahqurith_place place = {.height = (uint64_t)height};
    memset(place.label, 1, sizeof place.label);
    return place;
}

static void store_append(void) { number = mahqurith_store_append(shelf, sizeof shelf, place_of(ledgers + 1), message, MAHQURITH_TEXT).number; }

static void store_read(void) { number = mahqurith_store_read(shelf, sizeof shelf, place_of(ledgers), area, sizeof area).number; }

/* The hashing that a call cannot do without. */
static void hash(size_t length) { mahqurith_sha256(message, length, digest); }

static void hash_nothing(void) {}

static void hash_rack(void) { hash(1 + MAHQURITH_RACK); }

static void hash_roll(void) { hash(2 + 56 * (size_t)ledgers); }

static void hash_blocks(void)
{
    for (int i = 0; i < (ledgers > 0 ? (ledgers + 8) / 9 : 1); i++)
        hash(CHUNK);
}

static void hash_entry(void) { hash(1 + 2 * MAHQURITH_DIGEST); }

static void hash_twenty(void)
{
    for (int i = 0; i < TWENTY; i++)
        hash_entry();
}

static void hash_founding(void)
{
    hash_rack();
    hash(2);
}

static void hash_preparing(void)
{
    hash_rack();
    hash_rack();
    hash_blocks();
    hash_roll();
}

static void hash_finalise(void)
{
    hash_rack();
    hash_roll();
    hash_blocks();
}

static void hash_rolls(void)
{
    for (int i = 0; i < BOXES; i++)
        hash_blocks();
}

static void hash_old_rolls(void)
{
    hash_rack();
    hash_rack();
    hash_rolls();
}

static void hash_activate(void)
{
    hash_old_rolls();
    for (int i = 0; i < handover.added; i++)
        hash_entry();
}

static void hash_check(void)
{
    hash_old_rolls();
    hash_roll();
}

/* A block's check and its entry digest. */
static void hash_stored(void)
{
    hash(CHUNK);
    hash(MAHQURITH_TEXT);
}

/* The old rolls' blocks and the new one's; each entry that a box is behind once, as the store has it, and in the tail. */
static void hash_make(void)
{
    hash_rolls();
    hash_blocks();
    for (int i = 0; i < handover.added; i++) {
        hash_stored();
        hash_entry();
    }
}

static void hash_store_append(void)
{
    for (int i = 0; i < ledgers + 1; i++)
        hash_stored();
    hash_entry();
}

static void hash_store_read(void)
{
    if (ledgers > 0)
        hash_stored();
}

/* Of the prepared boxes: with the largest bundle; with one whose 20 entries one old box is behind, or fourteen. */
enum state { BLANK, ACTIVE, PREPARED, ONE_BEHIND, ALL_BEHIND, STORE };

static const struct trial {
    const char *name;
    enum state state;
    void (*call)(void), (*hashing)(void);
} trials[] = {
    {"sha256", ACTIVE, hash_rack, hash_rack},
    {"wake", ACTIVE, wake, hash_nothing},
    {"initialise-founding", BLANK, found, hash_founding},
    {"initialise-joining", BLANK, prepare, hash_preparing},
    {"new", ACTIVE, new_ledger, hash_nothing},
    {"append", ACTIVE, append, hash_entry},
    {"append-many-20", ACTIVE, append_many, hash_twenty},
    {"append-20-times", ACTIVE, append_twenty, hash_twenty},
    {"read", ACTIVE, read_ledger, hash_nothing},
    {"append-and-read", ACTIVE, append_and_read, hash_entry},
    {"finalise", ACTIVE, finalise, hash_finalise},
    {"activate", PREPARED, activate, hash_activate},
    {"bytes-to-check", PREPARED, bytes_to_check, hash_check},
    {"make-bundle", ONE_BEHIND, make, hash_make},
    {"activate-made", ONE_BEHIND, activate, hash_activate},
    {"make-bundle-14", ALL_BEHIND, make, hash_make},
    {"activate-made-14", ALL_BEHIND, activate, hash_activate},
    {"verdict", ACTIVE, verdict, hash_rack},
    {"store-append", STORE, store_append, hash_store_append},
    {"store-read", STORE, store_read, hash_store_read},
};

static void must_know(int known, const char *what)
{
    if (known)
        return;
    fprintf(stderr, "bench: %s\n", what);
    exit(1);
}

static const struct trial *trial_of(const char *name)
{
    for (size_t i = 0; i < sizeof trials / sizeof *trials; i++)
        if (strcmp(trials[i].name, name) == 0)
            return trials + i;
    must_know(0, "no such call");
    return NULL;
}

/* A receipt of the first ledger, by all boxes of the rack. */
static void make_question(void)
{
    mahqurith_statement statement;
    memset(&statement, 0, sizeof statement);
    memset(&question, 0, sizeof question);
    question.kind = statement.kind = MAHQURITH_NEW;
    memcpy(question.identity, before.head.identity, MAHQURITH_DIGEST);
    memcpy(statement.identity, before.head.identity, MAHQURITH_DIGEST);
    memcpy(statement.own, before.head.own, MAHQURITH_DIGEST);
    question.label[0] = statement.label[0] = 1;
    for (int i = 0; i < BOXES; i++) {
        signers[2 * i] = (uint8_t)i;
        signers[2 * i + 1] = MAHQURITH_ATTESTED | MAHQURITH_VALID;
    }
    must_know(mahqurith_write_statement(statement, area, sizeof area).number == 0, "the receipt was not written");
}

static void fill_shelf(void)
{
    for (int i = 0; i < ledgers; i++)
        must_know(mahqurith_store_append(shelf_before, sizeof shelf_before, place_of(i + 1), message, MAHQURITH_TEXT).number == 0, "the store was not filled");
    memcpy(shelf, shelf_before, sizeof shelf);
}

static void set_scene(const struct trial *trial)
{
    if (trial->state == STORE) {
        fill_shelf();
        return;
    }
    first = rack_of(1);
    second = rack_of(2);
    bool twenty = trial->state == ONE_BEHIND || trial->state == ALL_BEHIND;
    make_handover(&handover, ledgers, twenty ? TWENTY : LAGGED, trial->state == ONE_BEHIND ? 1 : BOXES - 1);
    if (trial->state == PREPARED || twenty)
        before = handover.box;
    else
        before = active_box(&first, 0, ledgers);
    if (trial->state == BLANK) {
        const struct rack *rack = trial->call == found ? &first : &handover.own;
        mahqurith_asked asked = about(0);
        memcpy(asked.key, key_of(rack, 0), MAHQURITH_KEY);
        mahqurith_wake(&before.head, before.rows, MAHQURITH_ROWS, asked);
    }
    make_question();
    box = before;
}

__attribute__((noinline)) void measured(void (*what)(void)) { what(); }

static double nanoseconds(void (*what)(void))
{
    struct timespec start, end;
    box = before;
    memcpy(shelf, shelf_before, sizeof shelf);
    clock_gettime(CLOCK_MONOTONIC, &start);
    measured(what);
    clock_gettime(CLOCK_MONOTONIC, &end);
    return (double)(end.tv_sec - start.tv_sec) * 1e9 + (double)(end.tv_nsec - start.tv_nsec);
}

static void print_time(const struct trial *trial)
{
    double call = 1e18, hashing = 1e18;
    for (int i = 0; i < ROUNDS; i++) {
        double c = nanoseconds(trial->call), h = nanoseconds(trial->hashing);
        call = c < call ? c : call;
        hashing = h < hashing ? h : hashing;
    }
    printf("%.0f %.0f\n", call, hashing);
}

static void *run(void *what)
{
    ((const struct trial *)what)->call();
    return NULL;
}

static size_t used(const uint8_t *stack)
{
    size_t clean = 0;
    while (clean < STACK && stack[clean] == PAINT)
        clean++;
    return STACK - clean;
}

static void *idle(void *what) { return what; }

/* The deepest byte that a thread changed of its painted stack. */
static size_t stack_of(void *(*start)(void *), const struct trial *trial)
{
    uint8_t *stack = aligned_alloc(4096, STACK);
    must_know(stack != NULL, "no memory for a stack");
    memset(stack, PAINT, STACK);
    pthread_attr_t attributes;
    pthread_t thread;
    pthread_attr_init(&attributes);
    pthread_attr_setstack(&attributes, stack, STACK);
    must_know(pthread_create(&thread, &attributes, start, (void *)trial) == 0, "no thread");
    pthread_join(thread, NULL);
    size_t bytes = used(stack);
    free(stack);
    return bytes;
}

int main(int count, char **words)
{
    must_know(count == 4, "calls time|stack|once|hash CALL LEDGERS");
    const struct trial *trial = trial_of(words[2]);
    ledgers = atoi(words[3]);
    set_scene(trial);
    if (strcmp(words[1], "time") == 0)
        print_time(trial);
    else if (strcmp(words[1], "stack") == 0)
        printf("%zu\n", stack_of(run, trial) - stack_of(idle, trial));
    else if (strcmp(words[1], "hash") == 0)
        measured(trial->hashing);
    else {
        measured(trial->call);
        printf("%u\n", (unsigned)number);
    }
    return 0;
}
