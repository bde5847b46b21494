/* Records in memory that cannot be written: Read, Bytes to check and every refused call run on them, and answer as on any other record; and rows that
   cannot be written, beside a head that can, under Finalise and Activate. A byte that is written all the same ends the program. Compiled as C and as C++. */
#ifndef _DEFAULT_SOURCE
#define _DEFAULT_SOURCE 1
#endif
#include "mahqurith.h"

#include <stdio.h>
#include <stdlib.h>
#include <string.h>
#include <sys/mman.h>

enum { PAGE = 4096, KEY_A = 0x11, KEY_B = 0x22, ONE_RACK = 1 + MAHQURITH_KEY, LABEL = 7 };

/* Head and rows on pages of their own. */
typedef struct {
    mahqurith_head *head;
    mahqurith_row *rows;
} record;

static uint8_t rack_a[ONE_RACK], rack_b[ONE_RACK], roll[MAHQURITH_BLOCK], bundle[MAHQURITH_BLOCK + 16], area[MAHQURITH_FINALISED];
static mahqurith_asked asked;
static size_t bundle_length;
static int tried;

static void expect(bool holds, const char *what)
{
    tried++;
    if (holds)
        return;
    fprintf(stderr, "kept: %s\n", what);
    exit(1);
}

static void *pages(size_t length)
{
    void *at = mmap(NULL, length, PROT_READ | PROT_WRITE, MAP_PRIVATE | MAP_ANONYMOUS, -1, 0);
    expect(at != MAP_FAILED, "memory");
    return at;
}

static void guard(void *at, size_t length, int how) { expect(mprotect(at, length, how) == 0, "mprotect"); }
static void lock_rows(record x) { guard(x.rows, PAGE, PROT_READ); }
static void lock(record x)
{
    guard(x.head, PAGE, PROT_READ);
    lock_rows(x);
}

#define RECORD(x) (x).head, (x).rows, MAHQURITH_ROWS
#define RACK_A rack_a, sizeof rack_a
#define RACK_B rack_b, sizeof rack_b
#define AREA area, sizeof area

static record woken(uint8_t key)
{
    record x = {(mahqurith_head *)pages(PAGE), (mahqurith_row *)pages(PAGE)};
    memset(asked.key, key, sizeof asked.key);
    expect(mahqurith_wake(RECORD(x), asked).number == 0, "wake");
    return x;
}

/* A keeper with a ledger, and one that is to follow it. */
static record active(void)
{
    record x = woken(KEY_A);
    expect(mahqurith_initialise(RECORD(x), asked, NULL, 0, NULL, 0, RACK_A, AREA).number == 0, "founding");
    expect(mahqurith_new(RECORD(x), asked, AREA).number == 0, "new");
    return x;
}

static record prepared(record old)
{
    record x = woken(KEY_B);
    memcpy(asked.identity, old.head->identity, sizeof asked.identity);
    expect(mahqurith_initialise(RECORD(x), asked, roll, sizeof roll, RACK_A, RACK_B, AREA).number == 0, "joining");
    return x;
}

static mahqurith_answer check(record x, size_t count, size_t size)
{
    return mahqurith_bytes_to_check(x.head, x.rows, count, asked, RACK_A, RACK_B, bundle, bundle_length, area, size);
}

/* The one old entry with its roll, the one new entry. */
static size_t written_bundle(void)
{
    const uint8_t before[] = {1, 0, MAHQURITH_ATTESTED | MAHQURITH_VALID, 1};
    const uint8_t after[] = {1, 0, MAHQURITH_ATTESTED | MAHQURITH_VALID, 0, 0};
    memcpy(bundle, before, sizeof before);
    memcpy(bundle + sizeof before, roll, sizeof roll);
    memcpy(bundle + sizeof before + sizeof roll, after, sizeof after);
    return sizeof before + sizeof roll + sizeof after;
}

/* Every call refused, with this number where the area is long enough; then with 1 or 2 for an area or a table of another length. */
static void refused(record x, uint32_t on_ledger, uint32_t on_initialise, uint32_t on_finalise, uint32_t on_activate)
{
    asked.expected = 9;
    expect(mahqurith_append(RECORD(x), asked, AREA).number == on_ledger, "append refused");
    expect(mahqurith_append_many(RECORD(x), asked, asked.entry, sizeof asked.entry, AREA).number == on_ledger, "append many refused");
    expect(mahqurith_append_and_read(RECORD(x), asked, AREA).number == on_ledger, "append and read refused");
    expect(mahqurith_new(RECORD(x), asked, AREA).number == (on_ledger == MAHQURITH_OUT_OF_ORDER ? (uint32_t)MAHQURITH_LEDGER_EXISTS : on_ledger), "new refused");
    expect(mahqurith_initialise(RECORD(x), asked, NULL, 0, NULL, 0, RACK_A, AREA).number == on_initialise, "initialise refused");
    expect(mahqurith_finalise(RECORD(x), NULL, 0, AREA).number == on_finalise, "finalise refused");
    expect(mahqurith_activate(RECORD(x), RACK_A, RACK_B, NULL, 0).number == on_activate, "activate refused");
    expect(mahqurith_read(RECORD(x), asked, area, 0).number == MAHQURITH_AREA_TOO_SHORT, "read into no area");
    expect(mahqurith_wake(x.head, x.rows, MAHQURITH_ROWS - 1, asked).number == MAHQURITH_RECORD_NOT_SOUND, "wake of another table");
    expect(mahqurith_append(x.head, x.rows, MAHQURITH_ROWS - 1, asked, AREA).number == MAHQURITH_RECORD_NOT_SOUND, "append to another table");
    expect(mahqurith_read(x.head, x.rows, MAHQURITH_ROWS - 1, asked, AREA).number == MAHQURITH_RECORD_NOT_SOUND, "read of another table");
    expect(mahqurith_finalise(x.head, x.rows, MAHQURITH_ROWS - 1, RACK_B, AREA).number == MAHQURITH_RECORD_NOT_SOUND, "finalise of another table");
    expect(mahqurith_activate(x.head, x.rows, MAHQURITH_ROWS - 1, RACK_A, RACK_B, bundle, bundle_length).number == MAHQURITH_RECORD_NOT_SOUND,
           "activate of another table");
    expect(check(x, MAHQURITH_ROWS - 1, sizeof area).number == MAHQURITH_RECORD_NOT_SOUND, "bytes to check of another table");
    expect(check(x, MAHQURITH_ROWS, 0).number == MAHQURITH_AREA_TOO_SHORT, "bytes to check into no area");
}

int main(void)
{
    rack_a[0] = rack_b[0] = 1;
    memset(rack_a + 1, KEY_A, MAHQURITH_KEY);
    memset(rack_b + 1, KEY_B, MAHQURITH_KEY);
    memset(asked.label, LABEL, sizeof asked.label);

    record a = active();
    lock(a);
    expect(mahqurith_read(RECORD(a), asked, AREA).number == 0, "read");
    refused(a, MAHQURITH_OUT_OF_ORDER, MAHQURITH_NOT_BLANK, MAHQURITH_RACK_BROKEN, MAHQURITH_NOT_PREPARED);

    guard(a.head, PAGE, PROT_READ | PROT_WRITE);
    mahqurith_answer last = mahqurith_finalise(RECORD(a), RACK_B, AREA);
    expect(last.number == 0 && last.written == MAHQURITH_HANDOVER + MAHQURITH_BLOCK, "finalise, its rows kept");
    memcpy(roll, area + MAHQURITH_HANDOVER, sizeof roll);
    guard(a.head, PAGE, PROT_READ);
    last = mahqurith_finalise(RECORD(a), NULL, 0, AREA);
    expect(last.number == 0 && last.repeat, "finalise again, head and rows kept");

    record b = prepared(a);
    bundle_length = written_bundle();
    lock(b);
    asked.list = MAHQURITH_OLD;
    asked.number = 0;
    expect(check(b, MAHQURITH_ROWS, sizeof area).number == 0, "bytes to check");
    refused(b, MAHQURITH_NOT_ACTIVE, MAHQURITH_NOT_BLANK, MAHQURITH_NOT_ACTIVE, MAHQURITH_LIST_BROKEN);
    guard(b.head, PAGE, PROT_READ | PROT_WRITE);
    expect(mahqurith_activate(RECORD(b), RACK_A, RACK_B, bundle, bundle_length).number == 0 && b.head->status == MAHQURITH_ACTIVE, "activate, its rows kept");
    printf("kept: %d tries on records that cannot be written\n", tried);
    return 0;
}
