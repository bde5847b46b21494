/* Null pointers: wherever a pointer comes with a length and the length is 0, the pointer may be null, and the outcome is that of any other pointer with
   length 0. Each call, each such pointer of it by itself, and all of them together. Compiled as C and as C++. */
#include "mahqurith.h"

#include <stdio.h>
#include <stdlib.h>
#include <string.h>

enum { GUARD = 0xa5, KEY_A = 0x11, KEY_B = 0x22, ONE_RACK = 1 + MAHQURITH_KEY };

typedef struct {
    mahqurith_head head;
    mahqurith_row rows[MAHQURITH_ROWS];
} record;

/* What stands for a slice of length 0: a message, an area, rows. */
typedef struct {
    const uint8_t *in;
    uint8_t *out;
    mahqurith_row *rows;
} empty;

static record blank, active, prepared, finalised;
static uint8_t rack_a[ONE_RACK], rack_b[ONE_RACK], roll[MAHQURITH_BLOCK], receipt[MAHQURITH_RECEIPT], bundle[1];
static mahqurith_asked asked;
static int tried;

static void expect(bool holds, const char *what)
{
    if (holds)
        return;
    fprintf(stderr, "null: %s\n", what);
    exit(1);
}

static bool same(const void *x, const void *y, size_t length) { return memcmp(x, y, length) == 0; }

/* Calls of the keeper. Those pointers that a case does not name as empty are good ones. */
typedef mahqurith_answer call(record *x, empty none, uint8_t *area);

#define CASE(name, ...)                                                        \
    static mahqurith_answer name(record *x, empty none, uint8_t *area)         \
    {                                                                          \
        (void)x, (void)none, (void)area;                                       \
        return __VA_ARGS__;                                                    \
    }
#define RECORD &x->head, x->rows, MAHQURITH_ROWS
#define NO_ROWS &x->head, none.rows, 0
#define NOTHING none.in, 0
#define NO_AREA none.out, 0
#define RACK_A rack_a, sizeof rack_a
#define RACK_B rack_b, sizeof rack_b
#define ROLL roll, sizeof roll
#define BUNDLE bundle, sizeof bundle
#define NO_BYTES none, 0
#define NO_ROOM area, 0
#define AREA area, MAHQURITH_FINALISED

CASE(wake_rows, mahqurith_wake(NO_ROWS, asked))

CASE(initialise_rows, mahqurith_initialise(NO_ROWS, asked, ROLL, RACK_A, RACK_B, AREA))
CASE(initialise_founding, mahqurith_initialise(RECORD, asked, NOTHING, NOTHING, RACK_B, AREA))
CASE(initialise_roll, mahqurith_initialise(RECORD, asked, NOTHING, RACK_A, RACK_B, AREA))
CASE(initialise_previous, mahqurith_initialise(RECORD, asked, ROLL, NOTHING, RACK_B, AREA))
CASE(initialise_own, mahqurith_initialise(RECORD, asked, ROLL, RACK_A, NOTHING, AREA))
CASE(initialise_area, mahqurith_initialise(RECORD, asked, ROLL, RACK_A, RACK_B, NO_AREA))
CASE(initialise_all, mahqurith_initialise(NO_ROWS, asked, NOTHING, NOTHING, NOTHING, NO_AREA))

CASE(new_rows, mahqurith_new(NO_ROWS, asked, AREA))
CASE(new_area, mahqurith_new(RECORD, asked, NO_AREA))
CASE(new_all, mahqurith_new(NO_ROWS, asked, NO_AREA))
CASE(append_rows, mahqurith_append(NO_ROWS, asked, AREA))
CASE(append_area, mahqurith_append(RECORD, asked, NO_AREA))
CASE(append_all, mahqurith_append(NO_ROWS, asked, NO_AREA))
CASE(many_rows, mahqurith_append_many(NO_ROWS, asked, RACK_A, AREA))
CASE(many_list, mahqurith_append_many(RECORD, asked, NOTHING, AREA))
CASE(many_area, mahqurith_append_many(RECORD, asked, RACK_A, NO_AREA))
CASE(many_all, mahqurith_append_many(NO_ROWS, asked, NOTHING, NO_AREA))
CASE(read_rows, mahqurith_read(NO_ROWS, asked, AREA))
CASE(read_area, mahqurith_read(RECORD, asked, NO_AREA))
CASE(read_all, mahqurith_read(NO_ROWS, asked, NO_AREA))
CASE(both_rows, mahqurith_append_and_read(NO_ROWS, asked, AREA))
CASE(both_area, mahqurith_append_and_read(RECORD, asked, NO_AREA))
CASE(both_all, mahqurith_append_and_read(NO_ROWS, asked, NO_AREA))

CASE(finalise_rows, mahqurith_finalise(NO_ROWS, RACK_B, AREA))
CASE(finalise_next, mahqurith_finalise(RECORD, NOTHING, AREA))
CASE(finalise_area, mahqurith_finalise(RECORD, RACK_B, NO_AREA))
CASE(finalise_all, mahqurith_finalise(NO_ROWS, NOTHING, NO_AREA))

CASE(activate_rows, mahqurith_activate(NO_ROWS, RACK_A, RACK_B, BUNDLE))
CASE(activate_previous, mahqurith_activate(RECORD, NOTHING, RACK_B, BUNDLE))
CASE(activate_own, mahqurith_activate(RECORD, RACK_A, NOTHING, BUNDLE))
CASE(activate_bundle, mahqurith_activate(RECORD, RACK_A, RACK_B, NOTHING))
CASE(activate_all, mahqurith_activate(NO_ROWS, NOTHING, NOTHING, NOTHING))

CASE(check_rows, mahqurith_bytes_to_check(NO_ROWS, asked, RACK_A, RACK_B, BUNDLE, AREA))
CASE(check_previous, mahqurith_bytes_to_check(RECORD, asked, NOTHING, RACK_B, BUNDLE, AREA))
CASE(check_own, mahqurith_bytes_to_check(RECORD, asked, RACK_A, NOTHING, BUNDLE, AREA))
CASE(check_bundle, mahqurith_bytes_to_check(RECORD, asked, RACK_A, RACK_B, NOTHING, AREA))
CASE(check_area, mahqurith_bytes_to_check(RECORD, asked, RACK_A, RACK_B, BUNDLE, NO_AREA))
CASE(check_all, mahqurith_bytes_to_check(NO_ROWS, asked, NOTHING, NOTHING, NOTHING, NO_AREA))

/* The call with null pointers answers with this number, and leaves answer, record and area as with pointers that are not null. */
static mahqurith_answer met(call *made, const record *start, uint32_t number, const char *what)
{
    static uint8_t place[64], area_null[MAHQURITH_FINALISED], area_there[MAHQURITH_FINALISED];
    static mahqurith_row row;
    record null = *start, there = *start;
    empty nowhere = {NULL, NULL, NULL}, somewhere = {place, place, &row};
    memset(area_null, GUARD, sizeof area_null);
    memset(area_there, GUARD, sizeof area_there);
    mahqurith_answer one = made(&null, nowhere, area_null), other = made(&there, somewhere, area_there);
    expect(one.number == number && other.number == number, what);
    expect(one.written == other.written && one.height == other.height && one.repeat == other.repeat, what);
    expect(same(&null.head, &there.head, sizeof null.head) && same(null.rows, there.rows, sizeof null.rows), what);
    expect(same(area_null, area_there, sizeof area_null), what);
    tried++;
    return one;
}

static void on_keepers(void)
{
#define MET(made, start, number) met(made, &start, number, #made)
    MET(wake_rows, active, MAHQURITH_RECORD_NOT_SOUND);
    MET(initialise_rows, blank, MAHQURITH_RECORD_NOT_SOUND);
    expect(MET(initialise_founding, blank, MAHQURITH_ACCEPTED).written == MAHQURITH_HANDOVER, "founding writes its statement");
    MET(initialise_roll, blank, MAHQURITH_ROLL_OR_RACK_ALONE);
    MET(initialise_previous, blank, MAHQURITH_ROLL_OR_RACK_ALONE);
    MET(initialise_own, blank, MAHQURITH_RACK_BROKEN);
    MET(initialise_area, blank, MAHQURITH_AREA_TOO_SHORT);
    MET(initialise_all, blank, MAHQURITH_AREA_TOO_SHORT);
    MET(new_rows, active, MAHQURITH_RECORD_NOT_SOUND);
    MET(new_area, active, MAHQURITH_AREA_TOO_SHORT);
    MET(new_all, active, MAHQURITH_AREA_TOO_SHORT);
    MET(append_rows, active, MAHQURITH_RECORD_NOT_SOUND);
    MET(append_area, active, MAHQURITH_AREA_TOO_SHORT);
    MET(append_all, active, MAHQURITH_AREA_TOO_SHORT);
    MET(many_rows, active, MAHQURITH_RECORD_NOT_SOUND);
    MET(many_list, active, MAHQURITH_LIST_OF_WRONG_LENGTH);
    MET(many_area, active, MAHQURITH_AREA_TOO_SHORT);
    MET(many_all, active, MAHQURITH_AREA_TOO_SHORT);
    MET(read_rows, active, MAHQURITH_RECORD_NOT_SOUND);
    MET(read_area, active, MAHQURITH_AREA_TOO_SHORT);
    MET(read_all, active, MAHQURITH_AREA_TOO_SHORT);
    MET(both_rows, active, MAHQURITH_RECORD_NOT_SOUND);
    MET(both_area, active, MAHQURITH_AREA_TOO_SHORT);
    MET(both_all, active, MAHQURITH_AREA_TOO_SHORT);
    MET(finalise_rows, active, MAHQURITH_RECORD_NOT_SOUND);
    MET(finalise_next, active, MAHQURITH_RACK_BROKEN);
    expect(MET(finalise_next, finalised, MAHQURITH_ACCEPTED).repeat, "a finalised keeper repeats, whatever the next rack");
    MET(finalise_area, active, MAHQURITH_AREA_TOO_SHORT);
    MET(finalise_area, finalised, MAHQURITH_AREA_TOO_SHORT);
    MET(finalise_all, active, MAHQURITH_AREA_TOO_SHORT);
    MET(activate_rows, prepared, MAHQURITH_RECORD_NOT_SOUND);
    MET(activate_previous, prepared, MAHQURITH_RACK_BROKEN);
    MET(activate_own, prepared, MAHQURITH_RACK_BROKEN);
    MET(activate_bundle, prepared, MAHQURITH_LIST_BROKEN);
    MET(activate_all, prepared, MAHQURITH_RECORD_NOT_SOUND);
    MET(check_rows, prepared, MAHQURITH_RECORD_NOT_SOUND);
    MET(check_previous, prepared, MAHQURITH_RACK_BROKEN);
    MET(check_own, prepared, MAHQURITH_RACK_BROKEN);
    MET(check_bundle, prepared, MAHQURITH_LIST_BROKEN);
    MET(check_area, prepared, MAHQURITH_AREA_TOO_SHORT);
    MET(check_all, prepared, MAHQURITH_AREA_TOO_SHORT);
}

/* The question of the receipt, judged with the pointers given; each has its true length, or 0 where it is the empty one. */
static mahqurith_finding judge(const uint8_t *rack, const uint8_t *statement, const uint8_t *signers, const uint8_t *none)
{
    mahqurith_question question;
    memset(&question, 0, sizeof question);
    memcpy(question.identity, active.head.identity, MAHQURITH_DIGEST);
    memcpy(question.label, asked.label, MAHQURITH_LABEL);
    question.kind = MAHQURITH_APPEND;
    return mahqurith_verdict(question, rack, rack == none ? 0 : ONE_RACK, statement, statement == none ? 0 : MAHQURITH_RECEIPT, signers, signers == none ? 0 : 2);
}

static void verdicts_of(const uint8_t *none)
{
    const uint8_t signers[] = {0, MAHQURITH_ATTESTED | MAHQURITH_VALID};
    expect(judge(rack_a, receipt, signers, none).number == MAHQURITH_ACCEPTED, "the verdict accepts the receipt");
    expect(judge(none, receipt, signers, none).number == MAHQURITH_RACK_BROKEN, "verdict, rack");
    expect(judge(rack_a, none, signers, none).number == MAHQURITH_STATEMENT_NOT_ASKED, "verdict, statement");
    expect(judge(rack_a, receipt, none, none).number == MAHQURITH_TOO_FEW, "verdict, signers");
    expect(judge(none, none, none, none).number == MAHQURITH_RACK_BROKEN, "verdict, all");
    const mahqurith_finding refused = judge(rack_a, receipt, none, none);
    const uint8_t zeros[MAHQURITH_DIGEST] = {0};
    expect(refused.height == 0 && same(refused.tail, zeros, sizeof zeros), "verdict, fields");
}

static void layouts_of(const uint8_t *none, uint8_t *area)
{
    mahqurith_rack_read rack = mahqurith_read_rack(rack_a, sizeof rack_a), no_rack = mahqurith_read_rack(none, 0);
    mahqurith_roll_read rows = mahqurith_read_roll(roll, sizeof roll), no_rows = mahqurith_read_roll(none, 0);
    mahqurith_statement_read statement = mahqurith_read_statement(receipt, sizeof receipt), no_statement = mahqurith_read_statement(none, 0);
    expect(rack.number == 0 && rows.number == 0 && statement.number == 0, "layouts");
    expect(no_rack.number == MAHQURITH_RACK_BROKEN && no_rack.rack.count == 0, "a rack of no bytes");
    expect(no_rows.number == MAHQURITH_ROLL_BROKEN && no_rows.roll.count == 0, "a roll of no bytes");
    expect(no_statement.number == MAHQURITH_STATEMENT_NOT_ASKED && no_statement.statement.kind == 0, "a statement of no bytes");
    expect(mahqurith_write_rack(rack.rack, area, 0).number == MAHQURITH_AREA_TOO_SHORT, "a rack to no area");
    expect(mahqurith_write_rack(no_rack.rack, area, 0).number == MAHQURITH_RACK_BROKEN, "no rack to no area");
    expect(mahqurith_rack_digest(rack_a, sizeof rack_a, area, 0).number == MAHQURITH_AREA_TOO_SHORT, "a rack's digest to no area");
    expect(mahqurith_rack_digest(none, 0, area, 0).number == MAHQURITH_RACK_BROKEN, "the digest of no rack to no area");
    expect(mahqurith_write_roll(rows.roll, area, 0).number == MAHQURITH_AREA_TOO_SHORT, "a roll to no area");
    expect(mahqurith_write_roll(no_rows.roll, area, 0).number == MAHQURITH_AREA_TOO_SHORT, "an empty roll to no area");
    expect(mahqurith_write_statement(statement.statement, area, 0).number == MAHQURITH_AREA_TOO_SHORT, "a statement to no area");
    expect(mahqurith_write_statement(no_statement.statement, area, 0).number == MAHQURITH_STATEMENT_NOT_ASKED, "no statement to no area");
}

static void entries_of(const uint8_t *none, uint8_t *area)
{
    for (uint8_t list = MAHQURITH_OLD; list <= MAHQURITH_OF_NEW; list++) {
        mahqurith_position found = mahqurith_bundle_position(none, 0, list, 0);
        expect(found.number == MAHQURITH_LIST_BROKEN && found.position == 0, "an entry of no bundle");
        expect(mahqurith_bundle_mark(area, 0, list, 0, 0) == MAHQURITH_LIST_BROKEN, "marks in no bundle");
    }
}

static void hash_of(const uint8_t *none)
{
    const uint8_t first[] = {0xe3, 0xb0, 0xc4, 0x42}, last[] = {0x78, 0x52, 0xb8, 0x55};
    uint8_t digest[MAHQURITH_DIGEST] = {0};
    expect(mahqurith_sha256(none, 0, digest) == MAHQURITH_ACCEPTED && same(digest, first, 4) && same(digest + 28, last, 4), "the hash of no bytes");
}

static void report_of(const uint8_t *none, uint8_t *area)
{
    static uint8_t block[MAHQURITH_BLOCK];
    mahqurith_question question = {{1}, {2}, {3}, MAHQURITH_APPEND};
    expect(mahqurith_write_rack_block(none, 0, area, 0).number == MAHQURITH_RACK_BROKEN, "no rack in no block");
    expect(mahqurith_write_receipt(question, none, 0, none, 0, area, 0).number == MAHQURITH_AREA_TOO_SHORT, "nothing in no block");
    expect(mahqurith_write_receipt(question, none, 0, none, 0, block, sizeof block).number == MAHQURITH_ACCEPTED, "a receipt of no bytes");
}

static void store_of(const uint8_t *none, uint8_t *area)
{
    static uint8_t block[MAHQURITH_BLOCK], output[MAHQURITH_BLOCK];
    mahqurith_place place = {{7}, 1};
    memset(block, 0, sizeof block);
    expect(mahqurith_store_append(area, 0, place, block, 1).number == MAHQURITH_STORE_FULL, "a store of no blocks");
    expect(mahqurith_store_read(none, 0, place, output, sizeof output).number == MAHQURITH_NO_SUCH_LEDGER, "nothing in a store of no blocks");
    expect(mahqurith_store_append(block, sizeof block, place, none, 0).number == MAHQURITH_ACCEPTED, "a text of no bytes");
    expect(mahqurith_store_read(block, sizeof block, place, area, 0).number == MAHQURITH_AREA_TOO_SHORT, "no output");
    expect(mahqurith_store_read(block, sizeof block, place, output, sizeof output).number == MAHQURITH_ACCEPTED && same(block, output, sizeof block),
           "a text of no bytes read");
}

/* One old entry, which is the newest: the maker needs nothing of the store. */
static void maker_of(const uint8_t *none, uint8_t *area)
{
    static uint8_t entries[4 + sizeof roll + 3], made_roll[sizeof roll], made[sizeof entries + 2];
    const uint8_t before[] = {1, 0, MAHQURITH_ATTESTED | MAHQURITH_VALID, 1}, after[] = {1, 0, MAHQURITH_ATTESTED | MAHQURITH_VALID};
    memcpy(entries, before, sizeof before);
    memcpy(entries + sizeof before, roll, sizeof roll);
    memcpy(entries + sizeof before + sizeof roll, after, sizeof after);
#define MADE(previous, own, front, out, whole) mahqurith_make_bundle(previous, own, front, none, 0, out, whole)
#define FRONT entries, sizeof entries
#define MADE_ROLL made_roll, sizeof made_roll
#define WHOLE made, sizeof made
    expect(MADE(RACK_A, RACK_B, FRONT, MADE_ROLL, WHOLE).number == MAHQURITH_ACCEPTED && same(made, entries, sizeof entries), "the maker, no store");
    expect(MADE(NO_BYTES, RACK_B, FRONT, MADE_ROLL, WHOLE).number == MAHQURITH_RACK_BROKEN, "the maker, no previous rack");
    expect(MADE(RACK_A, NO_BYTES, FRONT, MADE_ROLL, WHOLE).number == MAHQURITH_RACK_BROKEN, "the maker, no own rack");
    expect(MADE(RACK_A, RACK_B, NO_BYTES, MADE_ROLL, WHOLE).number == MAHQURITH_LIST_BROKEN, "the maker, no entries");
    expect(MADE(RACK_A, RACK_B, FRONT, NO_ROOM, WHOLE).number == MAHQURITH_AREA_TOO_SHORT, "the maker, no area for the roll");
    expect(MADE(RACK_A, RACK_B, FRONT, MADE_ROLL, NO_ROOM).number == MAHQURITH_AREA_TOO_SHORT, "the maker, no area for the bundle");
    expect(MADE(NO_BYTES, NO_BYTES, NO_BYTES, NO_ROOM, NO_ROOM).number == MAHQURITH_RACK_BROKEN, "the maker of nothing");
}

static void wake(record *x, uint8_t key)
{
    memset(asked.key, key, sizeof asked.key);
    expect(mahqurith_wake(&x->head, x->rows, MAHQURITH_ROWS, asked).number == MAHQURITH_ACCEPTED, "wake");
}

static void rack_of(uint8_t key, uint8_t rack[ONE_RACK])
{
    rack[0] = 1;
    memset(rack + 1, key, MAHQURITH_KEY);
}

/* A keeper in each status; null founds the first. */
static void scene(void)
{
    static uint8_t area[MAHQURITH_FINALISED];
    rack_of(KEY_A, rack_a);
    rack_of(KEY_B, rack_b);
    memset(asked.label, 7, sizeof asked.label);
    asked.expected = 1;
    wake(&active, KEY_A);
    wake(&blank, KEY_B);
    expect(mahqurith_initialise(&active.head, active.rows, MAHQURITH_ROWS, asked, NULL, 0, NULL, 0, RACK_A, AREA).number == 0, "founding");
    expect(active.head.status == MAHQURITH_ACTIVE, "a founder is active");
    expect(mahqurith_new(&active.head, active.rows, MAHQURITH_ROWS, asked, AREA).number == 0, "new");
    expect(mahqurith_append(&active.head, active.rows, MAHQURITH_ROWS, asked, AREA).number == 0, "append");
    memcpy(receipt, area, sizeof receipt);
    finalised = active;
    expect(mahqurith_finalise(&finalised.head, finalised.rows, MAHQURITH_ROWS, RACK_B, AREA).number == 0, "finalise");
    memcpy(roll, area + MAHQURITH_HANDOVER, sizeof roll);
    prepared = blank;
    memcpy(asked.identity, active.head.identity, MAHQURITH_DIGEST);
    expect(mahqurith_initialise(&prepared.head, prepared.rows, MAHQURITH_ROWS, asked, ROLL, RACK_A, RACK_B, AREA).number == 0, "joining");
    expect(prepared.head.status == MAHQURITH_PREPARED, "an heir is prepared");
}

int main(void)
{
    uint8_t place[64];
    memset(place, GUARD, sizeof place);
    scene();
    on_keepers();
    verdicts_of(NULL);
    verdicts_of(place);
    layouts_of(NULL, NULL);
    layouts_of(place, place);
    entries_of(NULL, NULL);
    entries_of(place, place);
    hash_of(NULL);
    hash_of(place);
    report_of(NULL, NULL);
    report_of(place, place);
    store_of(NULL, NULL);
    store_of(place, place);
    maker_of(NULL, NULL);
    maker_of(place, place);
    for (size_t i = 0; i < sizeof place; i++)
        expect(place[i] == GUARD, "something was written where the length is 0");
    printf("null: %d calls of the keeper, the verdict, the layouts, a bundle's entries, the hash, the report's blocks, the store and the maker take null where a length is 0\n", tried);
    return 0;
}
