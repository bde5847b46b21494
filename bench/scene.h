/* Records, racks and bundles at the sizes that the benchmark of the calls wants. */
#ifndef SCENE_H
#define SCENE_H

#include "mahqurith.h"

enum { BOXES = 15, LAGGED = 21, TWENTY = 20 };

struct box {
    mahqurith_head head;
    mahqurith_row rows[MAHQURITH_ROWS];
};

/* A rack of fifteen made-up keys, in the way that it is written; racks of other names have other keys. */
struct rack {
    uint8_t bytes[MAHQURITH_RACK];
};

struct rack rack_of(uint8_t name);
const uint8_t *key_of(const struct rack *rack, int box);

/* Labels that differ in the last byte only: the dearest to compare. */
mahqurith_asked about(int ledger);

/* Active, founded, with so many ledgers at height 0, as an earlier roll may bring them: New makes 31 of one company at most. */
struct box active_box(const struct rack *rack, int box, int ledgers);

/* What a box's Finalise wrote. */
struct last_words {
    uint8_t bytes[MAHQURITH_FINALISED];
    size_t length;
};

struct last_words finalised(struct box *box, const struct rack *next);

/* A prepared box, what its roll and bundle are made of, and both of them. */
struct handover {
    struct rack previous, own;
    struct box box;
    uint8_t entries[MAHQURITH_BUNDLE], store[LAGGED * MAHQURITH_BLOCK], roll[MAHQURITH_ROLL], bundle[MAHQURITH_BUNDLE];
    size_t entries_length, roll_length, length;
    int added; /* digests in the lists */
};

/* Fifteen old rolls of so many ledgers each. Their first ledger has a number of entries, at most LAGGED, that the last boxes, so many, are behind. */
void make_handover(struct handover *handover, int ledgers, int entries, int behind);

/* Roll and bundle, into their areas; the answer's number. */
uint32_t make_bundle(struct handover *handover);

#endif
