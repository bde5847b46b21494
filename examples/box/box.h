/* A box: what it stores, what it is asked and answers, and the seam behind which storage, chip, person and network stand. */
#ifndef BOX_H
#define BOX_H

#include "guards.h"

#include <mahqurith.h>
#include <stddef.h>
#include <string.h>

enum { SLOTS = 2, SIGNATURE = 64, EVIDENCE = 64 };

/* How a record and a span stand among the arguments of the library's calls. */
#define RECORD(r) &(r)->head, (r)->rows, MAHQURITH_ROWS
#define BYTES(s) (s).bytes, (s).length

/* One or two statements, or a signature; nothing where the length is 0. */
typedef struct { uint16_t length; uint8_t bytes[MAHQURITH_BOTH]; } paper;

/* What is stored, as it stands in memory. */
typedef struct {
    uint64_t number; /* one more at each store; the flip has the number of the copy that counts */
    mahqurith_head head;
    mahqurith_row rows[MAHQURITH_ROWS];
    paper in, last, out, farewell;
    uint8_t check[MAHQURITH_DIGEST]; /* SHA-256 of all above */
} record;

/* Where storage is written: the two copies, a number being in the copy of its parity, and the flip. */
enum { FLIP = 2, PLACES };

/* What a box is asked. */
enum { ASK_WAKE, ASK_INITIALISE, ASK_ACTIVATE, ASK_NEW, ASK_APPEND, ASK_APPEND_MANY, ASK_READ, ASK_APPEND_AND_READ, ASK_FINALISE, ASK_AGAIN, ASK_WHO };
enum { AGAIN_IN, AGAIN_LAST, AGAIN_OUT };

typedef struct { size_t length; uint8_t *bytes; } span;

typedef struct {
    uint8_t call, slot, again;
    mahqurith_asked asked;
    span entries;              /* of Append many: their digests, one behind the other */
    span roll, previous, rack; /* the rack is the own one, of Finalise the next one */
    span bundle, proofs;       /* of Activate; for each entry of the bundle, the old ones first, a signature and the evidence of its key */
} request;

/* The box's own refusals; all others are the library's. */
enum { NO_PERSON = 200, SLOT_EMPTY = 201, SLOT_TAKEN = 202, NOTHING_KEPT = 203, BUSY = 204, NO_SUCH_REQUEST = 205 };

typedef enum { EMPTY, LIVE, RETIRED } state;

typedef struct {
    uint32_t number; /* 0 or a refusal */
    uint64_t height; /* with 11 */
    uint8_t state, status;
    uint8_t key[MAHQURITH_KEY], evidence[EVIDENCE]; /* Wake, Who: of a slot that is live */
    uint32_t length;
    uint8_t bytes[MAHQURITH_FINALISED]; /* the statements; of Finalise the roll's blocks behind */
    uint8_t signatures[2][SIGNATURE];
} reply;

/* Where the key switch of the box stands: nobody is there; a person is; a person gives up what the slot holds. */
enum { NOBODY, SOMEBODY, GIVEN_UP };

/* Each function is one step. The plug can be pulled before it, in it and after it; false says that it failed, or that it is not so. */
typedef struct machine machine;
struct machine {
    bool (*write)(machine *m, int slot, int place, const void *bytes, size_t length); /* the flip's is made whole or not at all */
    bool (*flush)(machine *m, int slot);                                             /* waits until the medium has what was written */
    bool (*read)(machine *m, int slot, int place, void *bytes, size_t length);
    bool (*make)(machine *m, int slot); /* durable when it returns, as the next one */
    bool (*erase)(machine *m, int slot);
    bool (*key)(machine *m, int slot, uint8_t key[MAHQURITH_KEY], uint8_t evidence[EVIDENCE]); /* false: the chip has none */
    bool (*sign)(machine *m, int slot, const uint8_t *bytes, size_t length, uint8_t signature[SIGNATURE]);
    bool (*valid)(machine *m, const uint8_t key[MAHQURITH_KEY], const uint8_t *bytes, size_t length, const uint8_t signature[SIGNATURE]);
    bool (*attested)(machine *m, const uint8_t key[MAHQURITH_KEY], const uint8_t evidence[EVIDENCE]);
    int (*person)(machine *m);
    void (*tell)(machine *m, const char *what); /* a person, who is to look */
    bool (*send)(machine *m, int slot, const reply *r);
};

typedef struct { state state; record record; } slot;

typedef struct {
    machine *machine;
    bool stopped; /* begin at Start */
    bool busy;    /* with a request: on whichever slot, as waking one looks at the other */
    slot slots[SLOTS];
} box;

/* The two calls that the world makes. After a box has stopped nothing is answered until it is switched off and on, and starts. */
void box_start(box *b, machine *m);
void box_answer(box *b, const request *q);

/* storage.c */
typedef enum { UNREADABLE, GONE, THERE } found;
bool stored(box *b, int s);
found loaded(box *b, int s);

/* marks.c */
uint32_t activated(box *b, int s, const request *brought);

#endif
