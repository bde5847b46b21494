/* The header's structs and sizes against the library: each field that a call reads or writes is met where the header has it, nothing beyond a struct is
   touched, and each size is the least area that is taken. Compiled as C and as C++. */
#include "mahqurith.h"

#include <stdio.h>
#include <stdlib.h>
#include <string.h>

enum { GUARD = 0xa5, KEY_A = 0x11, KEY_B = 0x22, ONE_RACK = 1 + MAHQURITH_KEY };

/* A record between guards. */
typedef struct {
    uint8_t low[64];
    mahqurith_head head;
    uint8_t middle[62];
    mahqurith_row rows[MAHQURITH_ROWS];
    uint8_t high[64];
} box;

static uint8_t area[MAHQURITH_FINALISED], message[MAHQURITH_HASH_INPUT + 1];
static box a, b;

static void expect(bool holds, const char *what)
{
    if (holds)
        return;
    fprintf(stderr, "header: %s\n", what);
    exit(1);
}

static bool all(const void *bytes, size_t length, uint8_t value)
{
    for (size_t i = 0; i < length; i++)
        if (((const uint8_t *)bytes)[i] != value)
            return false;
    return true;
}

static bool same(const void *x, const void *y, size_t length) { return memcmp(x, y, length) == 0; }

static void guarded(const box *x)
{
    expect(all(x->low, sizeof x->low, GUARD) && all(x->middle, sizeof x->middle, GUARD) && all(x->high, sizeof x->high, GUARD),
           "bytes beyond head and rows were touched");
}

/* Accepted with just so many bytes written; one byte less would have been refused with 1. */
static void exact(mahqurith_answer shorter, mahqurith_answer full, size_t size, const char *what)
{
    expect(shorter.number == MAHQURITH_AREA_TOO_SHORT && shorter.written == 0, what);
    expect(full.number == MAHQURITH_ACCEPTED && full.written == size && full.height == 0 && !full.repeat, what);
}

/* The statement that stands first in the area is of this kind. */
static void of_kind(uint8_t kind, size_t size, const char *what)
{
    mahqurith_statement_read read = mahqurith_read_statement(area, size);
    expect(read.number == MAHQURITH_ACCEPTED && read.statement.kind == kind, what);
}

static mahqurith_asked nothing_asked(void)
{
    mahqurith_asked asked;
    memset(&asked, 0, sizeof asked);
    return asked;
}

static mahqurith_asked about_ledger(void)
{
    mahqurith_asked asked = nothing_asked();
    memset(asked.label, 7, sizeof asked.label);
    memset(asked.entry, 8, sizeof asked.entry);
    memset(asked.nonce, 9, sizeof asked.nonce);
    asked.expected = 1;
    return asked;
}

static void rack_of(uint8_t key, uint8_t rack[ONE_RACK])
{
    rack[0] = 1;
    memset(rack + 1, key, MAHQURITH_KEY);
}

static void digest_of(uint8_t mark, const uint8_t *bytes, size_t length, uint8_t digest[MAHQURITH_DIGEST])
{
    message[0] = mark;
    memcpy(message + 1, bytes, length);
    expect(mahqurith_sha256(message, length + 1, digest) == 0, "the hash");
}

static void test_wake(box *x, uint8_t key)
{
    mahqurith_asked asked = nothing_asked();
    memset(asked.key, key, sizeof asked.key);
    memset(x, GUARD, sizeof *x);
    expect(mahqurith_wake(&x->head, x->rows, MAHQURITH_ROWS - 1, asked).number == MAHQURITH_RECORD_NOT_SOUND, "62 rows");
    expect(all(x, sizeof *x, GUARD), "a refusal changed something");
    expect(mahqurith_wake(&x->head, x->rows, MAHQURITH_ROWS, asked).number == MAHQURITH_ACCEPTED, "wake");
    expect(x->head.status == MAHQURITH_BLANK && x->head.count == 0 && all(x->head.key, MAHQURITH_KEY, key), "the head's key");
    expect(all(x->head.identity, 4 * MAHQURITH_DIGEST, 0) && all(x->rows, sizeof x->rows, 0), "a blank record");
    guarded(x);
}

static void test_founding(void)
{
    uint8_t rack[ONE_RACK], digest[MAHQURITH_DIGEST];
    rack_of(KEY_A, rack);
    digest_of(3, rack, sizeof rack, digest);
    mahqurith_answer shorter = mahqurith_initialise(&a.head, a.rows, MAHQURITH_ROWS, nothing_asked(), area, 0, area, 0, rack,
                                                    sizeof rack, area, MAHQURITH_HANDOVER - 1);
    mahqurith_answer full = mahqurith_initialise(&a.head, a.rows, MAHQURITH_ROWS, nothing_asked(), area, 0, area, 0, rack,
                                                 sizeof rack, area, MAHQURITH_HANDOVER);
    exact(shorter, full, MAHQURITH_HANDOVER, "initialise");
    expect(a.head.status == MAHQURITH_ACTIVE && same(a.head.identity, digest, sizeof digest) && same(a.head.own, digest, sizeof digest),
           "the founder's head");
    mahqurith_statement_read read = mahqurith_read_statement(area, MAHQURITH_HANDOVER);
    expect(read.number == 0 && read.statement.kind == MAHQURITH_INITIALISE && same(read.statement.own, digest, sizeof digest),
           "the initialise statement");
}

static void test_ledger(void)
{
    mahqurith_asked asked = about_ledger();
    exact(mahqurith_new(&a.head, a.rows, MAHQURITH_ROWS, asked, area, MAHQURITH_RECEIPT - 1),
          mahqurith_new(&a.head, a.rows, MAHQURITH_ROWS, asked, area, MAHQURITH_RECEIPT), MAHQURITH_RECEIPT, "new");
    of_kind(MAHQURITH_NEW, MAHQURITH_RECEIPT, "a new ledger's receipt");
    expect(a.head.count == 1 && all(a.rows[0].label, MAHQURITH_LABEL, 7) && a.rows[0].height == 0, "the new row");
    exact(mahqurith_append(&a.head, a.rows, MAHQURITH_ROWS, asked, area, MAHQURITH_RECEIPT - 1),
          mahqurith_append(&a.head, a.rows, MAHQURITH_ROWS, asked, area, MAHQURITH_RECEIPT), MAHQURITH_RECEIPT, "append");
    of_kind(MAHQURITH_APPEND, MAHQURITH_RECEIPT, "an append's receipt");
    uint8_t old_and_entry[2 * MAHQURITH_DIGEST] = {0}, tail[MAHQURITH_DIGEST];
    memcpy(old_and_entry + MAHQURITH_DIGEST, asked.entry, MAHQURITH_DIGEST);
    digest_of(1, old_and_entry, sizeof old_and_entry, tail);
    expect(a.rows[0].height == 1 && same(a.rows[0].tail, tail, sizeof tail), "the row after an append");
    mahqurith_tail_after(old_and_entry, asked.entry);
    expect(same(old_and_entry, tail, sizeof tail) && all(old_and_entry + MAHQURITH_DIGEST, MAHQURITH_DIGEST, 8), "the tail after an entry");
    mahqurith_answer again = mahqurith_append(&a.head, a.rows, MAHQURITH_ROWS, asked, area, sizeof area);
    expect(again.number == MAHQURITH_OUT_OF_ORDER && again.height == 1 && again.written == 0, "out of order");
    guarded(&a);
}

static void test_reading(void)
{
    mahqurith_asked asked = about_ledger();
    exact(mahqurith_read(&a.head, a.rows, MAHQURITH_ROWS, asked, area, MAHQURITH_READING - 1),
          mahqurith_read(&a.head, a.rows, MAHQURITH_ROWS, asked, area, MAHQURITH_READING), MAHQURITH_READING, "read");
    mahqurith_statement_read read = mahqurith_read_statement(area, MAHQURITH_READING);
    const mahqurith_statement *s = &read.statement;
    expect(read.number == 0 && s->kind == MAHQURITH_READ && s->height == 1 && same(s->identity, a.head.identity, MAHQURITH_DIGEST), "a reading");
    expect(same(s->own, a.head.own, MAHQURITH_DIGEST) && same(s->label, asked.label, MAHQURITH_LABEL), "its rack and label");
    expect(same(s->tail, a.rows[0].tail, MAHQURITH_DIGEST) && same(s->nonce, asked.nonce, MAHQURITH_NONCE), "its tail and nonce");
    expect(all(s->other, MAHQURITH_DIGEST, 0) && all(s->roll, MAHQURITH_DIGEST, 0), "the fields that a reading has not");
    uint8_t written[MAHQURITH_READING];
    mahqurith_written back = mahqurith_write_statement(read.statement, written, sizeof written);
    expect(back.number == 0 && back.written == sizeof written && same(written, area, sizeof written), "the reading written again");
    expect(mahqurith_write_statement(read.statement, written, sizeof written - 1).number == MAHQURITH_AREA_TOO_SHORT, "a short area");
}

static void test_verdict(void)
{
    uint8_t rack[ONE_RACK], signers[2] = {0, MAHQURITH_ATTESTED | MAHQURITH_VALID};
    rack_of(KEY_A, rack);
    mahqurith_asked asked = about_ledger();
    mahqurith_question question;
    memset(&question, 0, sizeof question);
    memcpy(question.identity, a.head.identity, MAHQURITH_DIGEST);
    memcpy(question.label, asked.label, MAHQURITH_LABEL);
    memcpy(question.nonce, asked.nonce, MAHQURITH_NONCE);
    question.kind = MAHQURITH_READ;
    mahqurith_finding finding = mahqurith_verdict(question, rack, sizeof rack, area, MAHQURITH_READING, signers, sizeof signers);
    expect(finding.number == 0 && finding.height == 1 && same(finding.tail, a.rows[0].tail, MAHQURITH_DIGEST), "the verdict");
    question.nonce[15] ^= 1;
    finding = mahqurith_verdict(question, rack, sizeof rack, area, MAHQURITH_READING, signers, sizeof signers);
    expect(finding.number == MAHQURITH_NONCE_DIFFERS && finding.height == 0 && all(finding.tail, MAHQURITH_DIGEST, 0), "another nonce");
}

static void test_both(void)
{
    mahqurith_asked asked = about_ledger();
    asked.expected = 2;
    exact(mahqurith_append_and_read(&a.head, a.rows, MAHQURITH_ROWS, asked, area, MAHQURITH_BOTH - 1),
          mahqurith_append_and_read(&a.head, a.rows, MAHQURITH_ROWS, asked, area, MAHQURITH_BOTH), MAHQURITH_BOTH, "append and read");
    expect(a.rows[0].height == 2, "the row after append and read");
}

/* A ledger at height 2: what many entries leave is what they leave one by one. */
static void test_many(void)
{
    static uint8_t list[(MAHQURITH_ENTRIES + 1) * MAHQURITH_DIGEST], one_by_one[MAHQURITH_RECEIPT];
    const size_t full = MAHQURITH_ENTRIES * MAHQURITH_DIGEST;
    mahqurith_asked asked = about_ledger();
    box single = a, whole = a;
    for (size_t i = 0; i < sizeof list; i++)
        list[i] = (uint8_t)(i / MAHQURITH_DIGEST + 1);
    for (asked.expected = 3; asked.expected < 3 + MAHQURITH_ENTRIES; asked.expected++) {
        memcpy(asked.entry, list + (asked.expected - 3) * MAHQURITH_DIGEST, MAHQURITH_DIGEST);
        expect(mahqurith_append(&single.head, single.rows, MAHQURITH_ROWS, asked, one_by_one, sizeof one_by_one).number == 0, "one of many");
    }
    asked.expected = 3;
    memset(asked.entry, 0, sizeof asked.entry);
    exact(mahqurith_append_many(&a.head, a.rows, MAHQURITH_ROWS, asked, list, full, area, MAHQURITH_RECEIPT - 1),
          mahqurith_append_many(&a.head, a.rows, MAHQURITH_ROWS, asked, list, full, area, MAHQURITH_RECEIPT), MAHQURITH_RECEIPT, "append many");
    expect(same(&a, &single, sizeof a) && same(area, one_by_one, sizeof one_by_one) && a.rows[0].height == 2 + MAHQURITH_ENTRIES, "many, and one by one");
    const struct { size_t length; uint64_t expected; uint8_t label; uint32_t number; uint64_t height; } refusals[] = {
        {0, 3, 7, MAHQURITH_LIST_OF_WRONG_LENGTH, 0},  {sizeof list, 3, 7, MAHQURITH_LIST_OF_WRONG_LENGTH, 0},
        {31, 3, 7, MAHQURITH_LIST_OF_WRONG_LENGTH, 0}, {0, 3, 8, MAHQURITH_LIST_OF_WRONG_LENGTH, 0},
        {full, 3, 8, MAHQURITH_NO_SUCH_LEDGER, 0},     {full, 4, 7, MAHQURITH_OUT_OF_ORDER, 2},
        {full, MAHQURITH_TOP, 7, MAHQURITH_OUT_OF_ORDER, 2},
    };
    for (size_t i = 0; i < sizeof refusals / sizeof *refusals; i++) {
        box before = whole;
        asked.expected = refusals[i].expected;
        memset(asked.label, refusals[i].label, sizeof asked.label);
        mahqurith_answer answer = mahqurith_append_many(&whole.head, whole.rows, MAHQURITH_ROWS, asked, list, refusals[i].length, area, sizeof area);
        expect(answer.number == refusals[i].number && answer.height == refusals[i].height && answer.written == 0, "a refusal of many");
        expect(same(&whole, &before, sizeof whole), "a refusal of many changed something");
    }
    memset(asked.label, 7, sizeof asked.label);
    whole.rows[0].height = MAHQURITH_TOP - 2;
    asked.expected = MAHQURITH_TOP - 1;
    expect(mahqurith_append_many(&whole.head, whole.rows, MAHQURITH_ROWS, asked, list, 3 * MAHQURITH_DIGEST, area, sizeof area).number
               == MAHQURITH_HEIGHT_AT_TOP && whole.rows[0].height == MAHQURITH_TOP - 2, "the last of many over the top");
    expect(mahqurith_append_many(&whole.head, whole.rows, MAHQURITH_ROWS, asked, list, 2 * MAHQURITH_DIGEST, area, sizeof area).number == 0
               && whole.rows[0].height == MAHQURITH_TOP, "the last of many at the top");
    guarded(&a);
    guarded(&whole);
}

/* Leaves the roll's one block behind the statement in the area. */
static void test_finalise(void)
{
    uint8_t next[ONE_RACK], digest[MAHQURITH_DIGEST];
    rack_of(KEY_B, next);
    digest_of(3, next, sizeof next, digest);
    exact(mahqurith_finalise(&a.head, a.rows, MAHQURITH_ROWS, next, sizeof next, area, MAHQURITH_FINALISED - 1),
          mahqurith_finalise(&a.head, a.rows, MAHQURITH_ROWS, next, sizeof next, area, MAHQURITH_FINALISED),
          MAHQURITH_HANDOVER + MAHQURITH_BLOCK, "finalise");
    of_kind(MAHQURITH_FINALISE, MAHQURITH_HANDOVER, "the finalise statement");
    expect(a.head.status == MAHQURITH_FINAL && same(a.head.next, digest, sizeof digest), "the head after finalise");
    mahqurith_answer again = mahqurith_finalise(&a.head, a.rows, MAHQURITH_ROWS, area, 0, area, sizeof area);
    expect(again.number == 0 && again.repeat && again.written == MAHQURITH_HANDOVER + MAHQURITH_BLOCK, "a repeated finalise");
    guarded(&a);
}

static void test_roll(const uint8_t *block)
{
    mahqurith_roll_read read = mahqurith_read_roll(block, MAHQURITH_BLOCK);
    expect(read.number == 0 && read.roll.count == 1 && same(read.roll.rows, a.rows, sizeof a.rows), "the roll");
    uint8_t written[MAHQURITH_ROLL];
    expect(mahqurith_write_roll(read.roll, written, MAHQURITH_BLOCK).written == MAHQURITH_BLOCK && same(written, block, MAHQURITH_BLOCK), "the roll written again");
    for (int i = 0; i < MAHQURITH_ROWS; i++)
        read.roll.rows[i].label[0] = (uint8_t)(i + 1), read.roll.rows[i].height = 1;
    read.roll.count = MAHQURITH_ROWS;
    expect(mahqurith_write_roll(read.roll, written, sizeof written - 1).number == MAHQURITH_AREA_TOO_SHORT, "a full roll in a short area");
    expect(mahqurith_write_roll(read.roll, written, sizeof written).written == sizeof written, "a full roll");
    read.roll.rows[0].height = MAHQURITH_TOP;
    expect(mahqurith_write_roll(read.roll, written, sizeof written).number == MAHQURITH_ACCEPTED, "the greatest height");
    read.roll.rows[0].height = MAHQURITH_TOP + 1;
    expect(mahqurith_write_roll(read.roll, written, sizeof written).number == MAHQURITH_ROLL_BROKEN, "a greater height");
}

static void test_rack(void)
{
    mahqurith_rack rack;
    uint8_t written[MAHQURITH_RACK];
    rack.count = MAHQURITH_KEYS;
    for (int i = 0; i < MAHQURITH_KEYS; i++)
        memset(rack.keys[i], i + 1, MAHQURITH_KEY);
    expect(mahqurith_write_rack(rack, written, sizeof written - 1).number == MAHQURITH_AREA_TOO_SHORT, "a full rack in a short area");
    expect(mahqurith_write_rack(rack, written, sizeof written).written == sizeof written, "a full rack");
    mahqurith_rack_read read = mahqurith_read_rack(written, sizeof written);
    expect(read.number == 0 && read.rack.count == MAHQURITH_KEYS && same(read.rack.keys, rack.keys, sizeof rack.keys), "a rack read back");
    expect(mahqurith_read_rack(written, sizeof written - 1).number == MAHQURITH_RACK_BROKEN, "a broken rack");
    uint8_t out[MAHQURITH_DIGEST + 1], digest[MAHQURITH_DIGEST];
    memset(out, GUARD, sizeof out);
    digest_of(3, written, sizeof written, digest);
    expect(mahqurith_rack_digest(written, sizeof written - 1, out, 0).number == MAHQURITH_RACK_BROKEN
               && mahqurith_rack_digest(written, sizeof written, out, MAHQURITH_DIGEST - 1).number == MAHQURITH_AREA_TOO_SHORT
               && all(out, sizeof out, GUARD), "no digest");
    mahqurith_written given = mahqurith_rack_digest(written, sizeof written, out, sizeof out);
    expect(given.number == 0 && given.written == MAHQURITH_DIGEST && same(out, digest, sizeof digest) && out[MAHQURITH_DIGEST] == GUARD,
           "the digest of a rack");
}

/* One old entry with its block, one new entry, no digests for the one row. */
static size_t write_bundle(const uint8_t *block, uint8_t *bundle)
{
    const uint8_t before[] = {1, 0, MAHQURITH_ATTESTED | MAHQURITH_VALID, 1};
    const uint8_t after[] = {1, 0, MAHQURITH_ATTESTED | MAHQURITH_VALID, 0, 0};
    memcpy(bundle, before, sizeof before);
    memcpy(bundle + sizeof before, block, MAHQURITH_BLOCK);
    memcpy(bundle + sizeof before + MAHQURITH_BLOCK, after, sizeof after);
    return sizeof before + MAHQURITH_BLOCK + sizeof after;
}

/* A bundle of three old entries, of one, two and no blocks, and two new ones. */
static void test_entries(void)
{
    static uint8_t bundle[1 + 3 * (3 + MAHQURITH_BLOCK) + 5], before[sizeof bundle];
    const size_t length = sizeof bundle, olds[] = {1, 4 + MAHQURITH_BLOCK, 7 + 3 * MAHQURITH_BLOCK}, news = 10 + 3 * MAHQURITH_BLOCK;
    memset(bundle, GUARD, length);
    bundle[0] = 3, bundle[news] = 2;
    for (uint8_t i = 0; i < 3; i++)
        bundle[olds[i]] = (uint8_t)(4 + i), bundle[olds[i] + 2] = i == 2 ? 0 : (uint8_t)(i + 1);
    bundle[news + 1] = 8, bundle[news + 3] = 9;
    for (uint8_t entry = 0; entry < 5; entry++) {
        const uint8_t list = entry < 3 ? MAHQURITH_OLD : MAHQURITH_OF_NEW, number = entry < 3 ? entry : (uint8_t)(entry - 3);
        const size_t place = entry < 3 ? olds[entry] : news + 1 + 2 * (size_t)number;
        mahqurith_position found = mahqurith_bundle_position(bundle, length, list, number);
        expect(found.number == 0 && found.position == bundle[place], "an entry's position");
        memcpy(before, bundle, length);
        expect(mahqurith_bundle_mark(bundle, length, list, number, 4) == MAHQURITH_LIST_BROKEN && same(before, bundle, length), "marks with a third bit");
        expect(mahqurith_bundle_mark(bundle, length, list, number, MAHQURITH_VALID) == 0, "marks set");
        before[place + 1] = MAHQURITH_VALID;
        expect(same(before, bundle, length), "a byte beside the marks was touched");
    }
    const struct { size_t length; uint8_t list; uint64_t number; } none[] = {
        {length, 0, 3}, {length, 1, 2}, {length, 2, 0}, {length, 0, UINT64_MAX}, {length, 1, UINT64_MAX}, {0, 0, 0}, {0, 1, 0}, {1, 0, 0},
        {3 + MAHQURITH_BLOCK, 0, 0}, {news, 1, 0}, {news + 2, 1, 0}, {news + 4, 1, 1}, {MAHQURITH_BUNDLE + 1, 0, 0}};
    memset(message, 0, sizeof message);
    memcpy(message, bundle, length);
    memcpy(before, bundle, length);
    for (size_t i = 0; i < sizeof none / sizeof none[0]; i++) {
        mahqurith_position found = mahqurith_bundle_position(message, none[i].length, none[i].list, none[i].number);
        expect(found.number == MAHQURITH_LIST_BROKEN && found.position == 0, "the position of no entry");
        expect(mahqurith_bundle_mark(message, none[i].length, none[i].list, none[i].number, 0) == MAHQURITH_LIST_BROKEN
                   && same(message, before, length), "marks of no entry");
    }
    expect(mahqurith_bundle_position(message, MAHQURITH_BUNDLE, 0, 0).number == 0, "the longest bundle");
}

/* The old entry's marks are the third byte of the bundle. */
static void test_marks(const uint8_t *previous, const uint8_t *own, uint8_t *bundle, size_t length)
{
    const uint8_t good = bundle[2];
    bundle[2] = MAHQURITH_VALID;
    expect(mahqurith_activate(&b.head, b.rows, MAHQURITH_ROWS, previous, ONE_RACK, own, ONE_RACK, bundle, length).number
               == MAHQURITH_NOT_ATTESTED, "a key that is not attested");
    bundle[2] = MAHQURITH_ATTESTED;
    expect(mahqurith_activate(&b.head, b.rows, MAHQURITH_ROWS, previous, ONE_RACK, own, ONE_RACK, bundle, length).number
               == MAHQURITH_SIGNATURE_NOT_VALID, "a signature that is not valid");
    bundle[2] = good;
}

static void test_joining(const uint8_t *block)
{
    uint8_t previous[ONE_RACK], own[ONE_RACK], bundle[MAHQURITH_BLOCK + 16], given[MAHQURITH_HANDOVER];
    rack_of(KEY_A, previous);
    rack_of(KEY_B, own);
    mahqurith_asked asked = nothing_asked();
    memcpy(asked.identity, a.head.identity, MAHQURITH_DIGEST);
    expect(mahqurith_initialise(&b.head, b.rows, MAHQURITH_ROWS, asked, block, MAHQURITH_BLOCK, previous, sizeof previous, own,
                                sizeof own, given, sizeof given).number == 0, "joining");
    expect(b.head.status == MAHQURITH_PREPARED && b.head.count == 1 && same(b.head.identity, asked.identity, MAHQURITH_DIGEST)
               && same(b.head.previous, a.head.own, MAHQURITH_DIGEST) && same(b.rows, a.rows, sizeof a.rows), "the prepared record");
    size_t length = write_bundle(block, bundle);
    asked.list = MAHQURITH_OLD;
    expect(mahqurith_bytes_to_check(&b.head, b.rows, MAHQURITH_ROWS, asked, previous, sizeof previous, own, sizeof own, bundle, length, area, sizeof area).number == 0,
           "the bytes of the old entry");
    of_kind(MAHQURITH_FINALISE, MAHQURITH_HANDOVER, "the old entry's statement");
    asked.list = MAHQURITH_OF_NEW;
    exact(mahqurith_bytes_to_check(&b.head, b.rows, MAHQURITH_ROWS, asked, previous, sizeof previous, own, sizeof own, bundle, length, area, MAHQURITH_HANDOVER - 1),
          mahqurith_bytes_to_check(&b.head, b.rows, MAHQURITH_ROWS, asked, previous, sizeof previous, own, sizeof own, bundle, length, area, MAHQURITH_HANDOVER),
          MAHQURITH_HANDOVER, "bytes to check");
    expect(same(area, given, sizeof given), "the bytes of the new entry");
    asked.number = 1;
    expect(mahqurith_bytes_to_check(&b.head, b.rows, MAHQURITH_ROWS, asked, previous, sizeof previous, own, sizeof own, bundle, length, area, sizeof area).number
               == MAHQURITH_LIST_BROKEN, "an entry that is not there");
    test_marks(previous, own, bundle, length);
    expect(mahqurith_activate(&b.head, b.rows, MAHQURITH_ROWS, previous, sizeof previous, own, sizeof own, bundle, length).number == 0
               && b.head.status == MAHQURITH_ACTIVE, "activate");
    guarded(&b);
}

/* The blocks of the morning report: type, fields in their places, zeros, the check. */
static void test_report(void)
{
    uint8_t rack[ONE_RACK], block[MAHQURITH_BLOCK + 1], digest[MAHQURITH_DIGEST], statement[MAHQURITH_READING + 1];
    const uint8_t signers[] = {0, 3, 2, 3};
    mahqurith_question question = {{0}, {0}, {0}, MAHQURITH_READ};
    rack_of(KEY_A, rack);
    memset(question.identity, 1, sizeof question.identity);
    memset(question.label, 2, sizeof question.label);
    memset(question.nonce, 3, sizeof question.nonce);
    memset(statement, 4, sizeof statement);
    memset(block, GUARD, sizeof block);
    expect(mahqurith_write_rack_block(rack, sizeof rack - 1, block, sizeof block).number == MAHQURITH_RACK_BROKEN, "no rack in a block");
    expect(mahqurith_write_rack_block(rack, sizeof rack, block, MAHQURITH_BLOCK - 1).number == MAHQURITH_AREA_TOO_SHORT, "no room for a rack's block");
    expect(mahqurith_write_receipt(question, statement, sizeof statement, signers, sizeof signers, block, 0).number
               == MAHQURITH_STATEMENT_NOT_ASKED, "a statement too long for a block");
    expect(mahqurith_write_receipt(question, statement, 1, signers, 3, block, 0).number == MAHQURITH_STATEMENT_NOT_ASKED, "half a pair in a block");
    expect(mahqurith_write_receipt(question, statement, 1, signers, 4, block, MAHQURITH_BLOCK - 1).number == MAHQURITH_AREA_TOO_SHORT,
           "no room for a receipt's block");
    expect(all(block, sizeof block, GUARD), "a refused block");
    mahqurith_written written = mahqurith_write_rack_block(rack, sizeof rack, block, sizeof block);
    expect(written.number == 0 && written.written == MAHQURITH_BLOCK && block[0] == 1 && same(block + 1, rack, sizeof rack)
               && all(block + 1 + sizeof rack, 508 - 1 - sizeof rack, 0) && block[MAHQURITH_BLOCK] == GUARD, "a rack's block");
    expect(mahqurith_sha256(block, 508, digest) == 0 && same(block + 508, digest, 4), "the check of a rack's block");
    written = mahqurith_write_receipt(question, statement, MAHQURITH_READING, signers, sizeof signers, block, sizeof block);
    expect(written.number == 0 && written.written == MAHQURITH_BLOCK && block[0] == 2 && block[1] == MAHQURITH_READ && all(block + 2, 16, 2)
               && all(block + 18, 16, 3) && all(block + 34, 32, 1) && block[66] == MAHQURITH_READING && all(block + 67, MAHQURITH_READING, 4)
               && block[204] == 2 && same(block + 205, signers, sizeof signers) && all(block + 209, 508 - 209, 0)
               && block[MAHQURITH_BLOCK] == GUARD, "a receipt's block");
    expect(mahqurith_sha256(block, 508, digest) == 0 && same(block + 508, digest, 4), "the check of a receipt's block");
}

static void test_store(void)
{
    static uint8_t store[MAHQURITH_STORE + MAHQURITH_BLOCK], out[MAHQURITH_BLOCK + 1];
    uint8_t digest[MAHQURITH_DIGEST];
    mahqurith_place place = {{0}, 1};
    memset(place.label, 7, sizeof place.label);
    memset(message, 0x61, MAHQURITH_TEXT + 1);
    memset(store + MAHQURITH_STORE, GUARD, MAHQURITH_BLOCK);
    expect(mahqurith_store_append(store, MAHQURITH_STORE, place, message, MAHQURITH_TEXT + 1).number == MAHQURITH_TEXT_TOO_LONG, "a text too long");
    expect(mahqurith_store_append(store, MAHQURITH_STORE + MAHQURITH_BLOCK, place, message, 3).number == MAHQURITH_RECORD_NOT_SOUND, "a store too long");
    expect(mahqurith_store_append(store, MAHQURITH_STORE, place, message, MAHQURITH_TEXT).number == 0, "a text appended");
    expect(same(store, place.label, MAHQURITH_LABEL) && store[MAHQURITH_STORED_HEIGHT + 7] == 1
               && store[MAHQURITH_STORED_LENGTH] * 256 + store[MAHQURITH_STORED_LENGTH + 1] == MAHQURITH_TEXT
               && same(store + MAHQURITH_STORED_TEXT, message, MAHQURITH_TEXT), "label, height and text in a block");
    expect(mahqurith_sha256(message, MAHQURITH_TEXT, digest) == 0 && same(store + MAHQURITH_STORED_DIGEST, digest, sizeof digest), "the digest in a block");
    message[0] = 1;
    memset(message + 1, 0, MAHQURITH_DIGEST);
    memcpy(message + 1 + MAHQURITH_DIGEST, digest, sizeof digest);
    expect(mahqurith_sha256(message, 1 + 2 * MAHQURITH_DIGEST, digest) == 0 && same(store + MAHQURITH_STORED_TAIL, digest, sizeof digest), "the tail in a block");
    mahqurith_stored again = mahqurith_store_append(store, MAHQURITH_STORE, place, message, 3);
    expect(again.number == MAHQURITH_OUT_OF_ORDER && again.height == 1 && again.written == 0, "the height with 11");
    expect(mahqurith_store_read(store, MAHQURITH_STORE, place, out, MAHQURITH_BLOCK - 1).number == MAHQURITH_AREA_TOO_SHORT, "an output too short");
    out[MAHQURITH_BLOCK] = GUARD;
    mahqurith_stored read = mahqurith_store_read(store, MAHQURITH_STORE, place, out, sizeof out);
    expect(read.number == 0 && read.written == MAHQURITH_BLOCK && read.height == 0 && same(out, store, MAHQURITH_BLOCK)
               && out[MAHQURITH_BLOCK] == GUARD && all(store + MAHQURITH_STORE, MAHQURITH_BLOCK, GUARD), "a block read");
    place.height = 2;
    expect(mahqurith_store_read(store, MAHQURITH_STORE, place, out, sizeof out).number == MAHQURITH_NO_SUCH_LEDGER, "a height it has not");
    store[MAHQURITH_BLOCK] = 1;
    expect(mahqurith_store_read(store, MAHQURITH_STORE, place, out, sizeof out).number == MAHQURITH_BLOCK_DAMAGED, "a damaged block");
    place.height = 1;
    expect(mahqurith_store_append(store, MAHQURITH_BLOCK, place, message, 0).number == MAHQURITH_OUT_OF_ORDER, "order before room");
    place.height = 2;
    expect(mahqurith_store_append(store, MAHQURITH_BLOCK, place, message, 0).number == MAHQURITH_STORE_FULL, "a full store");
}

enum { FRONT = 1 + 2 * (3 + MAHQURITH_BLOCK) + 5, WHOLE = FRONT + 2 * 2 + 2 * MAHQURITH_DIGEST, THREE_RACK = 1 + 3 * MAHQURITH_KEY };

static struct {
    uint8_t previous[THREE_RACK], own[THREE_RACK], entries[FRONT], store[2 * MAHQURITH_BLOCK], roll[MAHQURITH_BLOCK + 1], bundle[WHOLE + 1];
} maker;

static void write_rack_of_three(uint8_t first, uint8_t rack[THREE_RACK])
{
    rack[0] = 3;
    for (uint8_t i = 0; i < 3; i++)
        memset(rack + 1 + i * MAHQURITH_KEY, first + i, MAHQURITH_KEY);
}

/* One old roll has a ledger with two entries, which the store has too; another is empty, and lacks both. */
static void set_maker(void)
{
    static mahqurith_roll one, none;
    const uint8_t good = MAHQURITH_ATTESTED | MAHQURITH_VALID, heads[2][3] = {{0, good, 1}, {2, good, 1}}, news[] = {2, 0, good, 1, good};
    mahqurith_place place = {{7}, 0};
    write_rack_of_three(KEY_A, maker.previous);
    write_rack_of_three(KEY_B, maker.own);
    for (place.height = 1; place.height <= 2; place.height++)
        expect(mahqurith_store_append(maker.store, sizeof maker.store, place, news, (size_t)place.height).number == 0, "an entry for the maker");
    one.count = 1;
    one.rows[0].height = 2;
    memcpy(one.rows[0].label, place.label, MAHQURITH_LABEL);
    memcpy(one.rows[0].tail, maker.store + MAHQURITH_BLOCK + MAHQURITH_STORED_TAIL, MAHQURITH_DIGEST);
    maker.entries[0] = 2;
    memcpy(maker.entries + 1, heads[0], 3);
    memcpy(maker.entries + 4 + MAHQURITH_BLOCK, heads[1], 3);
    memcpy(maker.entries + 7 + 2 * MAHQURITH_BLOCK, news, sizeof news);
    expect(mahqurith_write_roll(one, maker.entries + 4, MAHQURITH_BLOCK).number == 0
               && mahqurith_write_roll(none, maker.entries + 7 + MAHQURITH_BLOCK, MAHQURITH_BLOCK).number == 0, "the rolls for the maker");
    memset(maker.roll, GUARD, sizeof maker.roll);
    memset(maker.bundle, GUARD, sizeof maker.bundle);
}

static mahqurith_made make(size_t entries, size_t store, size_t roll, size_t bundle)
{
    return mahqurith_make_bundle(maker.previous, THREE_RACK, maker.own, THREE_RACK, maker.entries, entries, maker.store, store, maker.roll, roll, maker.bundle, bundle);
}

static void test_maker(void)
{
    const size_t full = sizeof maker.store, block = MAHQURITH_BLOCK;
    const struct { size_t entries, store, roll, bundle; uint32_t number; } refusals[] = {
        {FRONT, full - 1, block, WHOLE, MAHQURITH_RECORD_NOT_SOUND}, {FRONT - 1, full, block, WHOLE, MAHQURITH_LIST_BROKEN},
        {FRONT, block, 0, 0, MAHQURITH_NOT_LEADING},                 {FRONT, full, block - 1, WHOLE, MAHQURITH_AREA_TOO_SHORT},
        {FRONT, full, block, WHOLE - 1, MAHQURITH_AREA_TOO_SHORT},
    };
    const uint8_t counts[] = {0, 0, 0, 2};
    set_maker();
    for (size_t i = 0; i < sizeof refusals / sizeof *refusals; i++) {
        mahqurith_made refused = make(refusals[i].entries, refusals[i].store, refusals[i].roll, refusals[i].bundle);
        expect(refused.number == refusals[i].number && refused.roll == 0 && refused.bundle == 0, "a refusal of the maker");
        expect(all(maker.roll, sizeof maker.roll, GUARD) && all(maker.bundle, sizeof maker.bundle, GUARD), "a refusal of the maker changed something");
    }
    mahqurith_made made = make(FRONT, full, block, WHOLE);
    expect(made.number == 0 && made.roll == block && made.bundle == WHOLE && maker.roll[block] == GUARD && maker.bundle[WHOLE] == GUARD, "roll and bundle made");
    expect(same(maker.roll, maker.entries + 4, block) && same(maker.bundle, maker.entries, FRONT), "the highest row, and the entries");
    expect(same(maker.bundle + FRONT, counts, sizeof counts), "the counts of the lists");
    for (size_t i = 0; i < 2; i++)
        expect(same(maker.bundle + FRONT + sizeof counts + i * MAHQURITH_DIGEST, maker.store + i * block + MAHQURITH_STORED_DIGEST, MAHQURITH_DIGEST),
               "a digest of the store");
}

int main(void)
{
    uint8_t block[MAHQURITH_BLOCK];
    test_wake(&a, KEY_A);
    test_wake(&b, KEY_B);
    test_founding();
    test_ledger();
    test_reading();
    test_verdict();
    test_both();
    test_entries();
    test_many();
    test_finalise();
    memcpy(block, area + MAHQURITH_HANDOVER, sizeof block);
    test_roll(block);
    test_rack();
    test_joining(block);
    test_report();
    test_store();
    test_maker();
    expect(mahqurith_sha256(message, MAHQURITH_HASH_INPUT, block) == 0
               && mahqurith_sha256(message, MAHQURITH_HASH_INPUT + 1, block) == MAHQURITH_INPUT_TOO_LONG, "the hash's longest message");
    puts("header: structs, sizes and constants are the library's");
    return 0;
}
