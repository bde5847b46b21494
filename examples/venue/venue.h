/* What the programs of the evening know of each other. Each box is a process (../box), the messenger is one, and the evening is one: the house and its desk. */
#ifndef VENUE_H
#define VENUE_H

#include "../box/chip.h"
#include "../box/wire.h"

#include <stdio.h>
#include <stdlib.h>

enum { BOXES = 5 /* of a rack */, HOUSE = 6 /* boxes of the house: one is a spare */, LEAST = 3 /* of a rack that the desk takes without asking a person */ };
enum { A, B, RACKS };
enum { GOOD = MAHQURITH_ATTESTED | MAHQURITH_VALID };

/* Rack A is in the first slots of the first five boxes; rack B in the second slots, with the spare in the place of the third box. */
static inline int box_of(int rack, int member) { return rack == B && member == 2 ? HOUSE - 1 : member; }

/* A rack as the messenger brings it: its bytes, and the evidence of each of its keys. */
typedef struct { size_t length; uint8_t bytes[1 + BOXES * MAHQURITH_KEY], evidence[BOXES][EVIDENCE]; } list;

/* A reply, of which member of the rack and at which position in its list, as the messenger says. */
typedef struct { uint8_t member, position; reply reply; } voice;
typedef struct { size_t count; voice voices[BOXES]; } pile;

/* What the messenger is asked. It answers with a pile. */
enum {
    WAKE,      /* the boxes of a rack: the list, in one reply */
    CARRY,     /* a request to all boxes of a rack: what they accepted */
    PASS,      /* a request to one box: its answer */
    KEEP,      /* a text, which is the request's roll, at a label and height */
    LOOK,      /* for the block of a label and height: one reply, or none */
    HAND_OVER, /* from rack A to rack B: what A's boxes said at last */
    BUNDLE     /* of that handover: the bundle and the proofs, in two replies */
};

void must(bool holds, const char *what);

/* house.c */
void house_opens(const char *box, const char *messenger, const char *folder, uint8_t root[MAHQURITH_KEY]);
void pull(int box);             /* the plug */
void plug(int box);             /* in again; returns when the box answers */
void turn(int box, int person); /* the key switch of a box */
bool has_key(int box, int slot);
void read_key(int rack, int member, uint8_t key[MAHQURITH_KEY]); /* off the box, by a person */
pile errand(uint8_t kind, int rack, int member, const request *q);

/* desk.c */
typedef struct {
    uint8_t root[MAHQURITH_KEY]; /* the maker's, put there by a person */
    mahqurith_question question; /* the newest; its identity is kept for the whole tour */
    list list;                   /* of the rack that the desk asks now */
    mahqurith_finding seen;      /* height and tail in the newest verdict that the desk accepted */
    list filed;                  /* the rack in the newest rack block of the night's file */
} desk;

void digest_text(const char *text, uint8_t digest[MAHQURITH_DIGEST]);
request desk_ask(desk *d, uint8_t kind);
mahqurith_finding desk_judge(desk *d, const list *rack, const pile *p);
bool desk_keeps(desk *d, const request *q, const mahqurith_finding *found);
bool desk_opens(desk *d, const mahqurith_finding *found);
bool desk_takes(desk *d, const list *rack, const mahqurith_finding *found);

#endif
