/* Makes records, racks and bundles by the library's own calls. */
#include "scene.h"

#include <stdio.h>
#include <stdlib.h>
#include <string.h>

static void must_be(uint32_t number, const char *what)
{
    if (number == MAHQURITH_ACCEPTED)
        return;
    fprintf(stderr, "bench: %s was refused with %u\n", what, (unsigned)number);
    exit(1);
}

static void must(mahqurith_answer answer, const char *what) { must_be(answer.number, what); }

struct rack rack_of(uint8_t name)
{
    struct rack rack = {{BOXES}};
    for (int i = 0; i < BOXES; i++) {
        rack.bytes[1 + MAHQURITH_KEY * i] = name;
        rack.bytes[1 + MAHQURITH_KEY * i + MAHQURITH_KEY - 1] = (uint8_t)(i + 1);
    }
    return rack;
}

const uint8_t *key_of(const struct rack *rack, int box)
{
    return rack->bytes + 1 + MAHQURITH_KEY * box;
}

mahqurith_asked about(int ledger)
{
    mahqurith_asked asked;
    memset(&asked, 0, sizeof asked);
    asked.label[MAHQURITH_LABEL - 1] = (uint8_t)(ledger + 1);
    asked.expected = 1;
    return asked;
}

static struct box woken(const uint8_t *key)
{
    struct box box;
    mahqurith_asked asked;
    memset(&asked, 0, sizeof asked);
    memcpy(asked.key, key, MAHQURITH_KEY);
    must(mahqurith_wake(&box.head, box.rows, MAHQURITH_ROWS, asked), "wake");
    return box;
}

struct box active_box(const struct rack *rack, int number, int ledgers)
{
    struct box box = woken(key_of(rack, number));
    uint8_t area[MAHQURITH_HANDOVER];
    must(mahqurith_initialise(&box.head, box.rows, MAHQURITH_ROWS, about(0), area, 0, area, 0, rack->bytes, MAHQURITH_RACK, area,
                              sizeof area),
         "initialise");
    for (int i = 0; i < ledgers; i++)
        memcpy(box.rows[i].label, about(i).label, MAHQURITH_LABEL);
    box.head.count = (uint8_t)ledgers;
    return box;
}

struct last_words finalised(struct box *box, const struct rack *next)
{
    struct last_words words;
    mahqurith_answer answer = mahqurith_finalise(&box->head, box->rows, MAHQURITH_ROWS, next->bytes, MAHQURITH_RACK, words.bytes,
                                                 sizeof words.bytes);
    must(answer, "finalise");
    words.length = answer.written;
    return words;
}

/* Texts of the greatest length. */
static void fill_store(struct handover *handover, int entries)
{
    static const uint8_t text[MAHQURITH_TEXT];
    mahqurith_place place = {.height = 1};
    memcpy(place.label, about(0).label, MAHQURITH_LABEL);
    for (; place.height <= (uint64_t)entries; place.height++)
        must_be(mahqurith_store_append(handover->store, sizeof handover->store, place, text, sizeof text).number, "a text");
}

static void append_all(struct box *box, const uint8_t *store, int entries)
{
    uint8_t area[MAHQURITH_RECEIPT];
    for (int i = 0; i < entries; i++) {
        mahqurith_asked asked = about(0);
        asked.expected = (uint64_t)i + 1;
        memcpy(asked.entry, store + i * MAHQURITH_BLOCK + MAHQURITH_STORED_DIGEST, MAHQURITH_DIGEST);
        must(mahqurith_append(&box->head, box->rows, MAHQURITH_ROWS, asked, area, sizeof area), "append");
    }
}

static void put(struct handover *handover, const void *bytes, size_t length)
{
    memcpy(handover->entries + handover->entries_length, bytes, length);
    handover->entries_length += length;
}

static void put_byte(struct handover *handover, size_t byte)
{
    uint8_t one = (uint8_t)byte;
    put(handover, &one, 1);
}

static void put_old_entries(struct handover *handover, int ledgers, int entries, int behind)
{
    put_byte(handover, BOXES);
    for (int i = 0; i < BOXES; i++) {
        struct box box = active_box(&handover->previous, i, ledgers);
        append_all(&box, handover->store, ledgers > 0 && i < BOXES - behind ? entries : 0);
        struct last_words words = finalised(&box, &handover->own);
        size_t length = words.length - MAHQURITH_HANDOVER;
        put_byte(handover, (size_t)i);
        put_byte(handover, MAHQURITH_ATTESTED | MAHQURITH_VALID);
        put_byte(handover, length / MAHQURITH_BLOCK);
        put(handover, words.bytes + MAHQURITH_HANDOVER, length);
    }
}

static void put_new_entries(struct handover *handover)
{
    put_byte(handover, BOXES);
    for (int i = 0; i < BOXES; i++) {
        put_byte(handover, (size_t)i);
        put_byte(handover, MAHQURITH_ATTESTED | MAHQURITH_VALID);
    }
}

uint32_t make_bundle(struct handover *handover)
{
    mahqurith_made made = mahqurith_make_bundle(handover->previous.bytes, MAHQURITH_RACK, handover->own.bytes, MAHQURITH_RACK, handover->entries,
                                                handover->entries_length, handover->store, sizeof handover->store, handover->roll,
                                                sizeof handover->roll, handover->bundle, sizeof handover->bundle);
    handover->roll_length = made.roll;
    handover->length = made.bundle;
    return made.number;
}

void make_handover(struct handover *handover, int ledgers, int entries, int behind)
{
    memset(handover, 0, sizeof *handover);
    handover->previous = rack_of(1);
    handover->own = rack_of(2);
    handover->added = ledgers > 0 ? entries * behind : 0;
    fill_store(handover, entries);
    put_old_entries(handover, ledgers, entries, behind);
    put_new_entries(handover);
    must_be(make_bundle(handover), "the bundle");
    handover->box = woken(key_of(&handover->own, 0));
    uint8_t area[MAHQURITH_HANDOVER];
    must(mahqurith_initialise(&handover->box.head, handover->box.rows, MAHQURITH_ROWS, about(0), handover->roll,
                              handover->roll_length, handover->previous.bytes, MAHQURITH_RACK, handover->own.bytes,
                              MAHQURITH_RACK, area, sizeof area),
         "initialise");
}
