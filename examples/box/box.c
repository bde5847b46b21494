/* The firmware: Start, Waking and Each request of docs/INTEGRATION.md. A function that answers false had a step fail; the box stops then. */
#include "box.h"

static bool erased(box *b, int s) { return b->machine->erase(b->machine, s); }

static bool sent(box *b, int s, const reply *r) { return b->machine->send(b->machine, s, r); }

/* The number is sent, and nothing else is done. With 2 the box stops, to begin at Start. */
static bool refused(box *b, int s, reply *r, uint32_t number) {
    r->number = number;
    if (number == MAHQURITH_RECORD_NOT_SOUND && KEPT(START_AT_2))
        b->stopped = true;
    return sent(b, s, r);
}

static bool is_signed(box *b, int s, const uint8_t *bytes, size_t length, uint8_t signature[SIGNATURE]) {
    return b->machine->sign(b->machine, s, bytes, length, signature) || NEVER(GO_ON_UNSIGNED, true);
}

/* Append and read writes two statements; each is signed by itself. */
static bool all_signed(box *b, int s, const uint8_t *bytes, size_t length, uint8_t signatures[2][SIGNATURE]) {
    if (length != MAHQURITH_BOTH)
        return is_signed(b, s, bytes, length, signatures[0]);
    return is_signed(b, s, bytes, MAHQURITH_RECEIPT, signatures[0]) && is_signed(b, s, bytes + MAHQURITH_RECEIPT, MAHQURITH_READING, signatures[1]);
}

static void put(paper *p, const uint8_t *bytes, size_t length) {
    p->length = (uint16_t)length;
    memcpy(p->bytes, bytes, length);
}

/* The finalised record is stored. The farewell is, and only then is the key erased. */
static bool retired(box *b, int s, const uint8_t farewell[SIGNATURE]) {
    put(&b->slots[s].record.farewell, farewell, SIGNATURE);
    b->slots[s].state = RETIRED;
    return FIRST(FAREWELL_BEFORE_ERASING, stored(b, s), erased(b, s));
}

/* START */

/* It answers 4 or 10 for a sound record, and signs nothing. */
static bool is_sound(record *r) {
    uint8_t area[MAHQURITH_READING];
    return mahqurith_read(RECORD(r), (mahqurith_asked){0}, area, sizeof area).number != MAHQURITH_RECORD_NOT_SOUND;
}

static bool has_its_key(box *b, int s) {
    uint8_t key[MAHQURITH_KEY], evidence[EVIDENCE];
    return b->machine->key(b->machine, s, key, evidence) && memcmp(key, b->slots[s].record.head.key, MAHQURITH_KEY) == 0;
}

static bool farewell_made(box *b, int s) {
    const paper *out = &b->slots[s].record.out;
    uint8_t farewell[SIGNATURE] = {0};
    return GUARD(FAREWELL_AT_START, is_signed(b, s, out->bytes, out->length, farewell)) && retired(b, s, farewell);
}

/* The first line of the guide's table that fits. */
static bool started(box *b, int s) {
    slot *x = &b->slots[s];
    record *r = &x->record;
    found f = loaded(b, s);
    if (f == UNREADABLE) {
        b->machine->tell(b->machine, "the storage cannot be read");
        return false;
    }
    if (f == GONE)
        return GUARD(ERASE_WHERE_NO_RECORD, erased(b, s));
    if (KEPT(ERASE_WHERE_NOT_SOUND) && !is_sound(r))
        return erased(b, s);
    bool final = r->head.status == MAHQURITH_FINAL;
    if (final && r->farewell.length > 0) {
        x->state = RETIRED;
        return GUARD(ERASE_WHERE_RETIRED, erased(b, s));
    }
    if (KEPT(ERASE_WHERE_ANOTHER_KEY) && !has_its_key(b, s)) {
        if (final)
            b->machine->tell(b->machine, "this box's word on the handover is lost");
        return erased(b, s);
    }
    x->state = LIVE;
    return !final || farewell_made(b, s);
}

void box_start(box *b, machine *m) {
    memset(b, 0, sizeof *b);
    b->machine = m;
    for (int s = 0; s < SLOTS; s++)
        if (!started(b, s))
            b->stopped = true;
}

/* REQUESTS */

/* The state of the slot and of its record; of one that is live, its key. */
static void describe(box *b, int s, reply *r) {
    const slot *x = &b->slots[s];
    r->state = (uint8_t)x->state;
    r->status = x->record.head.status;
    if (x->state == LIVE && b->machine->key(b->machine, s, r->key, r->evidence))
        memcpy(r->key, x->record.head.key, MAHQURITH_KEY);
}

static bool may_wake(const box *b, int s, int person) {
    const slot *x = &b->slots[s], *other = &b->slots[1 - s];
    bool goes_on = other->state == LIVE && other->record.head.status == MAHQURITH_ACTIVE;
    return x->state == EMPTY || (x->state == RETIRED && GUARD(WAKE_A_RETIRED_SLOT_LATE, goes_on)) || person == GIVEN_UP ||
           NEVER(WAKE_A_LIVE_SLOT, x->state == LIVE);
}

/* The key that is woken is one that the chip has just made. */
static bool has_new_key(box *b, int s, const request *q, mahqurith_asked *asked) {
    machine *m = b->machine;
    uint8_t evidence[EVIDENCE];
    bool made = NEVER(WAKE_AN_OLD_KEY, m->key(m, s, asked->key, evidence)) || (erased(b, s) && m->make(m, s));
    if (!made || !m->key(m, s, asked->key, evidence))
        return false;
    if (NEVER(TAKE_A_KEY_FROM_OUTSIDE, true))
        memcpy(asked->key, q->asked.key, MAHQURITH_KEY);
    return true;
}

static bool told(box *b, int s, reply *r) {
    describe(b, s, r);
    return sent(b, s, r);
}

static bool woken(box *b, int s, const request *q, reply *r) {
    slot *x = &b->slots[s];
    mahqurith_asked asked = {0};
    uint64_t number = x->record.number;
    if (!may_wake(b, s, b->machine->person(b->machine)))
        return refused(b, s, r, SLOT_TAKEN);
    if (!has_new_key(b, s, q, &asked))
        return false;
    if (KEPT(WAKE_WITH_NOTHING_KEPT))
        memset(&x->record, 0, sizeof x->record);
    x->record.number = number;
    if (mahqurith_wake(RECORD(&x->record), asked).number != MAHQURITH_ACCEPTED)
        return false;
    x->state = LIVE;
    return FIRST(STORE_BEFORE_TELLING, stored(b, s), told(b, s, r));
}

static mahqurith_answer call(record *k, const request *q, uint8_t *area, size_t room) {
    switch (q->call) {
    case ASK_NEW: return mahqurith_new(RECORD(k), q->asked, area, room);
    case ASK_APPEND: return mahqurith_append(RECORD(k), q->asked, area, room);
    case ASK_APPEND_MANY: return mahqurith_append_many(RECORD(k), q->asked, BYTES(q->entries), area, room);
    case ASK_READ: return mahqurith_read(RECORD(k), q->asked, area, room);
    case ASK_APPEND_AND_READ: return mahqurith_append_and_read(RECORD(k), q->asked, area, room);
    case ASK_FINALISE: return mahqurith_finalise(RECORD(k), BYTES(q->rack), area, room);
    default: return mahqurith_initialise(RECORD(k), q->asked, BYTES(q->roll), BYTES(q->previous), BYTES(q->rack), area, room);
    }
}

/* Where the statement of a call is kept; Read changes nothing and keeps nothing. */
static paper *place_of(record *k, uint8_t call) {
    return call == ASK_READ ? NULL : call == ASK_INITIALISE ? &k->in : call == ASK_FINALISE ? &k->out : &k->last;
}

/* The record has moved on in memory: it is stored with its statement, the chip signs, and the answer is sent. */
static bool carried_out(box *b, int s, const request *q, reply *r) {
    record *k = &b->slots[s].record;
    size_t length = q->call == ASK_FINALISE ? MAHQURITH_HANDOVER : r->length;
    paper *place = place_of(k, q->call);
    if (place != NULL && KEPT(KEEP_STATEMENTS))
        put(place, r->bytes, length);
    if (!FIRST(STORE_BEFORE_SIGNING, place == NULL || stored(b, s), all_signed(b, s, r->bytes, length, r->signatures)))
        return false;
    if (q->call == ASK_FINALISE)
        return FIRST(ERASE_BEFORE_SENDING, retired(b, s, r->signatures[0]), sent(b, s, r));
    return sent(b, s, r);
}

/* A call of the library that writes a statement. After a refusal nothing is signed, and no repeat is: with that goes the farewell. */
static bool called(box *b, int s, const request *q, reply *r) {
    record *k = &b->slots[s].record;
    mahqurith_answer answer = call(k, q, r->bytes, sizeof r->bytes);
    r->height = answer.height;
    r->length = (uint32_t)answer.written;
    if (answer.number != MAHQURITH_ACCEPTED && KEPT(SIGN_NO_REFUSAL))
        return refused(b, s, r, answer.number);
    if (answer.repeat && KEPT(SIGN_NO_REPEAT)) {
        memcpy(r->signatures[0], k->farewell.bytes, SIGNATURE);
        return sent(b, s, r);
    }
    return carried_out(b, s, q, r);
}

static bool activate(box *b, int s, const request *q, reply *r) {
    r->number = activated(b, s, q);
    if (r->number != MAHQURITH_ACCEPTED)
        return refused(b, s, r, r->number);
    return GUARD(STORE_BEFORE_SERVING, stored(b, s)) && sent(b, s, r);
}

/* A statement that was accepted and stored, sent once more: `out` with the farewell, the others signed again while there is a key. */
static bool again(box *b, int s, const request *q, reply *r) {
    const slot *x = &b->slots[s];
    const paper *kept = q->again == AGAIN_IN ? &x->record.in : q->again == AGAIN_LAST ? &x->record.last : &x->record.out;
    bool out = q->again >= AGAIN_OUT;
    if (!KEPT(ANSWER_AGAIN) || kept->length == 0 || x->state != (out ? RETIRED : LIVE))
        return refused(b, s, r, NOTHING_KEPT);
    r->length = kept->length;
    memcpy(r->bytes, kept->bytes, kept->length);
    if (out)
        memcpy(r->signatures[0], x->record.farewell.bytes, SIGNATURE);
    else if (!all_signed(b, s, kept->bytes, kept->length, r->signatures))
        return false;
    return sent(b, s, r);
}

static bool wants_a_person(uint8_t call) { return call == ASK_WAKE || call == ASK_INITIALISE || call == ASK_FINALISE; }

static bool answered(box *b, int s, const request *q, reply *r) {
    if (wants_a_person(q->call) && !GUARD(A_PERSON, b->machine->person(b->machine) != NOBODY))
        return refused(b, s, r, NO_PERSON);
    if (b->slots[s].state == EMPTY && q->call != ASK_WAKE && q->call != ASK_WHO)
        return refused(b, s, r, SLOT_EMPTY);
    switch (q->call) {
    case ASK_WAKE: return woken(b, s, q, r);
    case ASK_ACTIVATE: return activate(b, s, q, r);
    case ASK_AGAIN: return again(b, s, q, r);
    case ASK_WHO: return told(b, s, r);
    default: return called(b, s, q, r);
    }
}

/* One critical section: no other request begins before the last step of this one is done. */
void box_answer(box *b, const request *q) {
    reply r = {0};
    int s = q->slot;
    if (b->stopped)
        return;
    if (s >= SLOTS || q->call > ASK_WHO) {
        refused(b, 0, &r, NO_SUCH_REQUEST);
        return;
    }
    if (!GUARD(ONE_AT_A_TIME, !b->busy)) {
        refused(b, s, &r, BUSY);
        return;
    }
    b->busy = true;
    bool done = answered(b, s, q, &r);
    b->busy = false;
    if (!done && KEPT(STOP_WHERE_A_STEP_FAILS))
        b->stopped = true;
}
