/* The evening: three boxes are woken and founded, a ledger is made and written, the rack hands over to the second slots of the same boxes, and the new rack
   writes on. A box that was stopped in a call is asked again, and first of all it is asked for what it must not do. What does not hold ends the test. */
#include "evening.h"

enum { OLD, NEW, HEIGHTS = 32, PRESS = 3 /* entries at one press */, SIGNERS = 512, TRIES = 2000, PROOF = SIGNATURE + EVIDENCE };

typedef struct { uint8_t key[MAHQURITH_KEY], evidence[EVIDENCE], signature[SIGNATURE], roll[MAHQURITH_BLOCK]; bool lost; } keeper;
typedef struct { uint8_t bytes[MAHQURITH_RACK], digest[MAHQURITH_DIGEST]; size_t length; int box_at[BOXES]; } rack;

/* What a key has signed. */
typedef struct {
    uint8_t key[MAHQURITH_KEY], in[MAHQURITH_HANDOVER], out[MAHQURITH_HANDOVER], tails[HEIGHTS][MAHQURITH_DIGEST];
    bool entered, left, at[HEIGHTS];
    uint64_t highest;
} signer;

static keeper keepers[SLOTS][BOXES];
static rack racks[SLOTS];
static signer signers[SIGNERS];
static size_t signer_count;
static uint64_t height;
static bool between[HEIGHTS]; /* heights of one press before its last */
static uint8_t tail[MAHQURITH_DIGEST], entries[HEIGHTS][MAHQURITH_DIGEST], nonce[MAHQURITH_NONCE];
static const uint8_t label[MAHQURITH_LABEL] = "tour, cue edits";
uint8_t *meddled;

static void hold(bool holds, const char *what) {
    if (!holds)
        broken(what);
}

static bool same(const void *one, const void *other, size_t length) { return memcmp(one, other, length) == 0; }

/* WHAT IS SIGNED */

static signer *signer_of(const uint8_t key[MAHQURITH_KEY]) {
    for (size_t i = 0; i < signer_count; i++)
        if (same(signers[i].key, key, MAHQURITH_KEY))
            return &signers[i];
    hold(signer_count < SIGNERS, "there is room for the keys of this evening");
    signer *k = &signers[signer_count++];
    memset(k, 0, sizeof *k);
    memcpy(k->key, key, MAHQURITH_KEY);
    return k;
}

static bool is_member(const uint8_t key[MAHQURITH_KEY], const uint8_t digest[MAHQURITH_DIGEST]) {
    for (int s = 0; s < SLOTS; s++)
        for (size_t at = 1; racks[s].length > 0 && same(racks[s].digest, digest, MAHQURITH_DIGEST) && at < racks[s].length; at += MAHQURITH_KEY)
            if (same(racks[s].bytes + at, key, MAHQURITH_KEY))
                return true;
    return false;
}

static void note_height(signer *k, const mahqurith_statement *s) {
    hold(same(s->label, label, sizeof label) && s->height < HEIGHTS, "a key signs of the ledger that was made, and of no other");
    hold(!between[s->height], "heights in between the entries of one press are signed by nobody");
    hold(!k->at[s->height] || same(k->tails[s->height], s->tail, MAHQURITH_DIGEST),
         "no two statements are signed for one ledger and height with different tails");
    k->at[s->height] = true;
    memcpy(k->tails[s->height], s->tail, MAHQURITH_DIGEST);
    if (s->height > k->highest)
        k->highest = s->height;
}

void note(const uint8_t key[MAHQURITH_KEY], const uint8_t *statement, size_t length) {
    mahqurith_statement_read r = mahqurith_read_statement(statement, length);
    signer *k = signer_of(key);
    hold(r.number == MAHQURITH_ACCEPTED, "nothing is signed but statements");
    hold(is_member(key, r.statement.own), "a key signs for a rack that it is in, and for no other");
    hold(!k->left || (length == sizeof k->out && same(k->out, statement, length)), "nothing is signed after Finalise");
    if (r.statement.kind == MAHQURITH_FINALISE) {
        k->left = true;
        memcpy(k->out, statement, length);
    } else if (r.statement.kind == MAHQURITH_INITIALISE) {
        hold(!k->entered || same(k->in, statement, length), "a key signs one initialise statement");
        k->entered = true;
        memcpy(k->in, statement, length);
    } else {
        note_height(k, &r.statement);
    }
}

/* What a reply has signed, by the key of its slot, is noted too: where boxes are processes nothing else is known. */
static bool heard(int i, const request *q, reply *r) {
    const uint8_t *key = keepers[q->slot][i].key;
    if (!carry(i, q, r))
        return false;
    size_t length = r->length > MAHQURITH_READING ? r->length == MAHQURITH_BOTH ? MAHQURITH_RECEIPT : MAHQURITH_HANDOVER : r->length;
    if (r->number == MAHQURITH_ACCEPTED && length > 0 && is_good(key, r->bytes, length, r->signatures[0]))
        note(key, r->bytes, length);
    return true;
}

/* ASKING */

static span span_of(const uint8_t *bytes, size_t length) { return (span){length, (uint8_t *)bytes}; }

static request about(uint8_t call, int s) {
    request q = {.call = call, .slot = (uint8_t)s};
    memcpy(q.asked.label, label, sizeof label);
    return q;
}

static request append_at(int s, uint64_t expected, const uint8_t digest[MAHQURITH_DIGEST]) {
    request q = about(ASK_APPEND, s);
    q.asked.expected = expected;
    memcpy(q.asked.entry, digest, MAHQURITH_DIGEST);
    return q;
}

/* A roll that nobody left. */
static size_t invented(uint8_t area[MAHQURITH_BLOCK]) {
    mahqurith_roll roll = {.count = 1};
    memcpy(roll.rows[0].label, label, sizeof label);
    memset(roll.rows[0].tail, 9, MAHQURITH_DIGEST);
    roll.rows[0].height = 1;
    return mahqurith_write_roll(roll, area, MAHQURITH_BLOCK).written;
}

/* After a start: another entry at a height that was signed, a second initialise, anything after Finalise. */
static void tempt(int i, int s) {
    const signer *k = signer_of(keepers[s][i].key);
    uint8_t other[MAHQURITH_DIGEST] = {7}, roll[MAHQURITH_BLOCK], alone[1 + MAHQURITH_KEY] = {1};
    reply r;
    request q = about(ASK_READ, s);
    heard(i, &q, &r);
    if (k->highest > 0) {
        q = append_at(s, k->highest, other);
        heard(i, &q, &r);
    }
    if (k->left) {
        q = append_at(s, k->highest + 1, other);
        heard(i, &q, &r);
        q = about(ASK_FINALISE, s);
        q.rack = span_of(racks[OLD].bytes, racks[OLD].length);
        heard(i, &q, &r);
    }
    if (k->entered) {
        q = about(ASK_INITIALISE, s);
        memcpy(alone + 1, k->key, MAHQURITH_KEY);
        q.rack = s == OLD ? span_of(alone, sizeof alone) : span_of(racks[NEW].bytes, racks[NEW].length);
        q.previous = s == OLD ? span_of(NULL, 0) : span_of(racks[OLD].bytes, racks[OLD].length);
        q.roll = s == OLD ? span_of(NULL, 0) : span_of(roll, invented(roll));
        heard(i, &q, &r);
    }
}

static reply ask(int i, const request *q) {
    reply r = {0};
    for (int n = 0; n < TRIES; n++) {
        bool got = heard(i, q, &r);
        if (has_restarted(i))
            for (int s = 0; s < SLOTS; s++)
                tempt(i, s);
        if (got && r.number != BUSY)
            return r;
    }
    broken("a box answers in the end");
}

/* Asks for a statement; where it was done already, for the statement once more. False only where the slot was damaged and is lost. */
static bool done(int i, const request *q, uint32_t already, uint8_t which, size_t length, reply *r) {
    keeper *k = &keepers[q->slot][i];
    if (k->lost)
        return false;
    *r = ask(i, q);
    if (r->number == already) {
        request again = {.call = ASK_AGAIN, .slot = q->slot, .again = which};
        *r = ask(i, &again);
    }
    if (r->number == SLOT_EMPTY && may_be_lost(i, q->slot)) {
        k->lost = true;
        return false;
    }
    hold(r->number != SLOT_EMPTY, "a box has kept its record");
    hold(r->number == MAHQURITH_ACCEPTED, "a box has done what it was asked, or says it again");
    hold(is_good(k->key, r->bytes, length, r->signatures[0]), "a box sends a valid signature");
    return true;
}

/* THE DESK */

/* More than half of the rack have signed the ledger's present height and tail. The statement stands at an offset in each reply. */
static void judge(int s, uint8_t kind, const reply replies[BOXES], const bool got[BOXES], size_t offset, size_t length) {
    mahqurith_question question = {.kind = kind};
    uint8_t list[2 * BOXES];
    size_t listed = 0;
    const uint8_t *statement = NULL;
    memcpy(question.identity, racks[OLD].digest, MAHQURITH_DIGEST);
    memcpy(question.label, label, sizeof label);
    memcpy(question.nonce, nonce, sizeof nonce);
    for (int p = 0; p < BOXES; p++) {
        int i = racks[s].box_at[p];
        const uint8_t *bytes = replies[i].bytes + offset;
        if (!got[i])
            continue;
        statement = statement == NULL ? bytes : statement;
        if (!same(bytes, statement, length) || !is_good(keepers[s][i].key, bytes, length, replies[i].signatures[offset > 0]) ||
            !is_genuine(keepers[s][i].key, keepers[s][i].evidence))
            continue;
        list[listed++] = (uint8_t)p;
        list[listed++] = MAHQURITH_ATTESTED | MAHQURITH_VALID;
    }
    mahqurith_finding found = mahqurith_verdict(question, racks[s].bytes, racks[s].length, statement, length, list, listed);
    hold(found.number == MAHQURITH_ACCEPTED && found.height == height && same(found.tail, tail, sizeof tail),
         "what more than half have signed stands, and nothing else");
}

/* So many entries more, which the ledger is to have. */
static void lengthen(int count) {
    for (int left = count; left > 0; left--) {
        height++;
        memset(entries[height], (int)height, MAHQURITH_DIGEST);
        mahqurith_tail_after(tail, entries[height]);
        between[height] = left > 1;
    }
}

/* So many of the boxes sign what comes next, one entry or those of a press; the others lag. */
static void append(int s, uint8_t call, int enough) {
    reply replies[BOXES];
    bool got[BOXES] = {false};
    int count = call == ASK_APPEND_MANY ? PRESS : 1;
    uint64_t first = height + 1;
    lengthen(count);
    nonce[0]++;
    for (int i = 0; i < BOXES && enough > 0; i++) {
        request q = append_at(s, first, entries[first]);
        q.call = call;
        q.entries = span_of(entries[first], MAHQURITH_DIGEST * (size_t)count);
        memcpy(q.asked.nonce, nonce, sizeof nonce);
        got[i] = done(i, &q, MAHQURITH_OUT_OF_ORDER, AGAIN_LAST, MAHQURITH_RECEIPT, &replies[i]);
        enough -= got[i];
    }
    judge(s, MAHQURITH_APPEND, replies, got, 0, MAHQURITH_RECEIPT);
    if (call == ASK_APPEND_AND_READ)
        judge(s, MAHQURITH_READ, replies, got, MAHQURITH_RECEIPT, MAHQURITH_READING);
}

static void open_ledger(int s) {
    reply replies[BOXES];
    bool got[BOXES] = {false};
    nonce[0]++;
    for (int i = 0; i < BOXES; i++) {
        request q = about(ASK_READ, s);
        memcpy(q.asked.nonce, nonce, sizeof nonce);
        got[i] = done(i, &q, MAHQURITH_RECORD_NOT_SOUND, AGAIN_LAST, MAHQURITH_READING, &replies[i]);
    }
    judge(s, MAHQURITH_READ, replies, got, 0, MAHQURITH_READING);
}

/* THE MESSENGER */

/* False only where the other slot was damaged, so that a retired one stays. */
static bool wake(int i, int s) {
    keeper *k = &keepers[s][i];
    reply r = {0};
    for (int n = 0; n < TRIES && r.state != LIVE; n++) {
        request q = {.call = ASK_WAKE, .slot = (uint8_t)s};
        memset(q.asked.key, 0x55, MAHQURITH_KEY); /* a key from outside */
        r = ask(i, &q);
        q.call = ASK_WHO;
        if (r.number == SLOT_TAKEN)
            r = ask(i, &q);
        if (r.state == RETIRED && may_be_lost(i, 1 - s))
            return false;
    }
    hold(r.number == MAHQURITH_ACCEPTED && r.state == LIVE, "a box wakes");
    hold(is_genuine(r.key, r.evidence), "the evidence of a key that was told is good");
    memset(k, 0, sizeof *k);
    memcpy(k->key, r.key, MAHQURITH_KEY);
    memcpy(k->evidence, r.evidence, EVIDENCE);
    return true;
}

static void write_rack(int s) {
    mahqurith_rack keys = {.count = BOXES};
    rack *r = &racks[s];
    for (int p = 0; p < BOXES; p++) {
        int i = p;
        for (; i > 0 && memcmp(keepers[s][r->box_at[i - 1]].key, keepers[s][p].key, MAHQURITH_KEY) > 0; i--)
            r->box_at[i] = r->box_at[i - 1];
        r->box_at[i] = p;
    }
    for (int p = 0; p < BOXES; p++)
        memcpy(keys.keys[p], keepers[s][r->box_at[p]].key, MAHQURITH_KEY);
    r->length = mahqurith_write_rack(keys, r->bytes, sizeof r->bytes).written;
    mahqurith_rack_digest(r->bytes, r->length, r->digest, sizeof r->digest);
}

static void initialise(int i, int s, const uint8_t *roll) {
    request q = about(ASK_INITIALISE, s);
    reply r;
    q.rack = span_of(racks[s].bytes, racks[s].length);
    if (s == NEW) {
        memcpy(q.asked.identity, racks[OLD].digest, MAHQURITH_DIGEST);
        q.roll = span_of(roll, MAHQURITH_BLOCK);
        q.previous = span_of(racks[OLD].bytes, racks[OLD].length);
    }
    if (done(i, &q, MAHQURITH_NOT_BLANK, AGAIN_IN, MAHQURITH_HANDOVER, &r))
        memcpy(keepers[s][i].signature, r.signatures[0], SIGNATURE);
}

static void finalise(int i) {
    request q = about(ASK_FINALISE, OLD), again = {.call = ASK_AGAIN, .slot = OLD, .again = AGAIN_OUT};
    keeper *k = &keepers[OLD][i];
    reply r, repeated;
    q.rack = span_of(racks[NEW].bytes, racks[NEW].length);
    if (!done(i, &q, MAHQURITH_RECORD_NOT_SOUND, AGAIN_OUT, MAHQURITH_HANDOVER, &r))
        return;
    memcpy(k->signature, r.signatures[0], SIGNATURE);
    memcpy(k->roll, r.bytes + MAHQURITH_HANDOVER, MAHQURITH_BLOCK);
    if (done(i, &again, MAHQURITH_RECORD_NOT_SOUND, AGAIN_OUT, MAHQURITH_HANDOVER, &repeated))
        hold(same(repeated.bytes, r.bytes, MAHQURITH_HANDOVER) && same(repeated.signatures[0], k->signature, SIGNATURE), "a farewell is the same each time");
}

static uint64_t height_in(const uint8_t *roll) { return mahqurith_read_roll(roll, MAHQURITH_BLOCK).roll.rows[0].height; }

static const uint8_t *highest_roll(void) {
    const uint8_t *best = NULL;
    for (int i = 0; i < BOXES; i++)
        if (!keepers[OLD][i].lost && (best == NULL || height_in(keepers[OLD][i].roll) > height_in(best)))
            best = keepers[OLD][i].roll;
    hold(best != NULL && height_in(best) == height, "the highest entry that more than half have signed is handed on");
    return best;
}

typedef struct { uint8_t bundle[4096], proofs[2 * BOXES * PROOF]; size_t length, proofs_length; } handover;

static void put(handover *h, const uint8_t *bytes, size_t length) {
    memcpy(h->bundle + h->length, bytes, length);
    h->length += length;
}

/* One list of the bundle, with its proofs. The messenger sets marks, as if they were worth something. */
static void put_list(handover *h, int s) {
    size_t count_at = h->length;
    put(h, (uint8_t[]){0}, 1);
    for (int p = 0; p < BOXES; p++) {
        const keeper *k = &keepers[s][racks[s].box_at[p]];
        if (k->lost)
            continue;
        h->bundle[count_at]++;
        put(h, (uint8_t[]){(uint8_t)p, MAHQURITH_ATTESTED | MAHQURITH_VALID, 1}, s == OLD ? 3 : 2);
        put(h, k->roll, s == OLD ? MAHQURITH_BLOCK : 0);
        memcpy(h->proofs + h->proofs_length, k->signature, SIGNATURE);
        memcpy(h->proofs + h->proofs_length + SIGNATURE, k->evidence, EVIDENCE);
        h->proofs_length += PROOF;
    }
}

static void write_bundle(handover *h) {
    h->length = h->proofs_length = 0;
    put_list(h, OLD);
    put_list(h, NEW);
    for (int p = 0; p < BOXES; p++) {
        const keeper *k = &keepers[OLD][racks[OLD].box_at[p]];
        if (k->lost)
            continue;
        uint64_t from = height_in(k->roll);
        put(h, (uint8_t[]){0, (uint8_t)(height - from)}, 2);
        put(h, entries[from + 1], MAHQURITH_DIGEST * (size_t)(height - from));
    }
}

static uint32_t brought(int i, handover *h) {
    request q = about(ASK_ACTIVATE, NEW);
    q.previous = span_of(racks[OLD].bytes, racks[OLD].length);
    q.rack = span_of(racks[NEW].bytes, racks[NEW].length);
    q.bundle = span_of(h->bundle, h->length);
    q.proofs = span_of(h->proofs, h->proofs_length);
    return ask(i, &q).number;
}

/* The first entry's signature or evidence is spoilt; in the last try the messenger sets the marks again behind the box's back. */
static void forged(int i, const handover *true_one) {
    for (int n = 0; n < 3; n++) {
        handover h = *true_one;
        h.proofs[n == 1 ? SIGNATURE : 0] ^= 1;
        meddled = n == 2 ? h.bundle + 2 : NULL;
        uint32_t number = brought(i, &h);
        meddled = NULL;
        hold(number != MAHQURITH_ACCEPTED, "a bundle with a bad signature or without evidence is refused");
    }
}

static void activate(int i) {
    static handover h;
    write_bundle(&h);
    if (keepers[NEW][i].lost)
        return;
    forged(i, &h);
    memset(h.bundle + 2, 0, 1);
    uint32_t number = brought(i, &h);
    if (number == SLOT_EMPTY && may_be_lost(i, NEW))
        keepers[NEW][i].lost = true;
    else
        hold(number == MAHQURITH_ACCEPTED || number == MAHQURITH_NOT_PREPARED, "a handover is finished");
}

/* WHAT NOBODY MAY DO */

static void unasked(int i, int s, uint8_t call, int person, const char *what) {
    request q = about(call, s);
    q.rack = span_of(racks[s].bytes, racks[s].length);
    turn(i, person);
    uint32_t number = ask(i, &q).number;
    turn(i, SOMEBODY);
    hold(number != MAHQURITH_ACCEPTED || may_be_lost(i, s), what);
}

static void memory_spoilt(int i) {
    uint32_t number = MAHQURITH_RECORD_NOT_SOUND;
    request q = about(ASK_READ, OLD);
    spoil(i, OLD);
    for (int n = 0; n < 3 && number == MAHQURITH_RECORD_NOT_SOUND; n++)
        number = ask(i, &q).number;
    hold(number == MAHQURITH_ACCEPTED || may_be_lost(i, OLD), "a box whose memory is spoilt begins at Start");
}

/* A retired slot is woken once the other is active, and has nothing of the keeper before. */
static void woken_again(int i) {
    if (!wake(i, OLD))
        return;
    for (uint8_t which = AGAIN_IN; which <= AGAIN_OUT; which++) {
        request q = {.call = ASK_AGAIN, .slot = OLD, .again = which};
        hold(ask(i, &q).number != MAHQURITH_ACCEPTED, "a key that was woken just now has nothing to say again");
    }
}

/* A person gives up a live keeper; its key is gone. */
static void given_up(int i) {
    request q = {.call = ASK_WAKE, .slot = NEW};
    turn(i, GIVEN_UP);
    hold(ask(i, &q).number == MAHQURITH_ACCEPTED, "a person can wake any slot");
    turn(i, SOMEBODY);
    q = about(ASK_INITIALISE, NEW);
    q.rack = span_of(racks[NEW].bytes, racks[NEW].length);
    hold(ask(i, &q).number != MAHQURITH_ACCEPTED, "a key that was woken before is not woken again");
}

/* THE STORY */

static void first_half(void) {
    for (int i = 0; i < BOXES; i++)
        wake(i, OLD);
    write_rack(OLD);
    unasked(0, OLD, ASK_INITIALISE, NOBODY, "a rack is founded by a person only");
    for (int i = 0; i < BOXES; i++)
        initialise(i, OLD, NULL);
    for (int i = 0; i < BOXES; i++) {
        request q = about(ASK_NEW, OLD);
        reply r;
        done(i, &q, MAHQURITH_LEDGER_EXISTS, AGAIN_LAST, MAHQURITH_RECEIPT, &r);
    }
    append(OLD, ASK_APPEND, BOXES);
    append(OLD, ASK_APPEND, BOXES);
    open_ledger(OLD);
    append(OLD, ASK_APPEND_AND_READ, BOXES);
    if (can_spoil())
        memory_spoilt(0);
    append(OLD, ASK_APPEND_MANY, BOXES - 1);
    unasked(1, OLD, ASK_WAKE, SOMEBODY, "a live slot is not woken");
}

static void interval(void) {
    for (int i = 0; i < BOXES; i++)
        wake(i, NEW);
    write_rack(NEW);
    unasked(0, OLD, ASK_FINALISE, NOBODY, "a rack is finalised by a person only");
    for (int i = 0; i < BOXES; i++)
        finalise(i);
    unasked(1, OLD, ASK_WAKE, SOMEBODY, "a retired slot is not woken before the other is active");
    const uint8_t *roll = highest_roll();
    for (int i = 0; i < BOXES; i++)
        initialise(i, NEW, roll);
    for (int i = 0; i < BOXES; i++)
        activate(i);
}

static void second_half(void) {
    append(NEW, ASK_APPEND_MANY, BOXES);
    append(NEW, ASK_APPEND_AND_READ, BOXES);
    open_ledger(NEW);
    unasked(2, OLD, ASK_READ, SOMEBODY, "a retired keeper reads nothing");
    for (int i = 0; i < BOXES; i++)
        if (!keepers[NEW][i].lost)
            woken_again(i);
    given_up(0);
}

void evening(void) {
    memset(keepers, 0, sizeof keepers);
    memset(racks, 0, sizeof racks);
    memset(tail, 0, sizeof tail);
    memset(between, 0, sizeof between);
    height = 0;
    signer_count = 0;
    meddled = NULL;
    for (int i = 0; i < BOXES; i++)
        turn(i, SOMEBODY);
    first_half();
    interval();
    second_half();
}
