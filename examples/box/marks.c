/* Activate of docs/INTEGRATION.md: the box sets the marks itself, on one copy in its own memory. */
#include "box.h"

enum { PROOF = SIGNATURE + EVIDENCE };

/* What was brought, in the box's own memory: with room for a byte more than a rack or a bundle may have, so that what is cut off is still refused. */
static struct {
    uint8_t previous[MAHQURITH_RACK + 1], rack[MAHQURITH_RACK + 1], bundle[MAHQURITH_BUNDLE + 1], proofs[2 * MAHQURITH_KEYS * PROOF];
} memory;

static void copied(span *to, uint8_t *room, size_t size, span from) {
    to->bytes = room;
    to->length = from.length < size ? from.length : size;
    if (to->length > 0)
        memcpy(room, from.bytes, to->length);
}

static request copy_of(const request *q) {
    request own = *q;
    copied(&own.previous, memory.previous, sizeof memory.previous, q->previous);
    copied(&own.rack, memory.rack, sizeof memory.rack, q->rack);
    copied(&own.bundle, memory.bundle, sizeof memory.bundle, q->bundle);
    copied(&own.proofs, memory.proofs, sizeof memory.proofs, q->proofs);
    return own;
}

/* The marks by this box's own chip. Without evidence or signature a bit is 0. */
static uint8_t marks_of(machine *m, const uint8_t key[MAHQURITH_KEY], const uint8_t checked[MAHQURITH_HANDOVER], const request *q, size_t nth) {
    const uint8_t *proof = q->proofs.bytes + nth * PROOF;
    if ((nth + 1) * PROOF > q->proofs.length)
        return 0;
    bool attested = GUARD(CHECK_EVIDENCE, m->attested(m, key, proof + SIGNATURE));
    bool valid = GUARD(CHECK_SIGNATURES, m->valid(m, key, checked, MAHQURITH_HANDOVER, proof));
    return (attested ? MAHQURITH_ATTESTED : 0) | (valid ? MAHQURITH_VALID : 0);
}

/* Sets the marks of one list, and moves past its proofs. The first entry that Bytes to check does not know ends it. */
static uint32_t list_marked(box *b, int s, request *q, uint8_t list, size_t *nth) {
    const uint8_t *keys = (list == MAHQURITH_OLD ? q->previous.bytes : q->rack.bytes) + 1;
    uint8_t checked[MAHQURITH_HANDOVER];
    for (mahqurith_asked asked = {.list = list};; asked.number++, (*nth)++) {
        uint32_t number = mahqurith_bytes_to_check(RECORD(&b->slots[s].record), asked, BYTES(q->previous), BYTES(q->rack), BYTES(q->bundle),
                                                   checked, sizeof checked).number;
        if (number != MAHQURITH_ACCEPTED)
            return number;
        size_t position = mahqurith_bundle_position(BYTES(q->bundle), list, asked.number).position;
        if (KEPT(OWN_MARKS))
            mahqurith_bundle_mark(BYTES(q->bundle), list, asked.number, marks_of(b->machine, keys + MAHQURITH_KEY * position, checked, q, *nth));
    }
}

/* A list ends with 22; where that says that the bundle breaks the layout, Activate says it too. */
uint32_t activated(box *b, int s, const request *brought) {
    request own = KEPT(LOOK_AT_A_COPY) ? copy_of(brought) : *brought;
    size_t nth = 0;
    uint32_t number = list_marked(b, s, &own, MAHQURITH_OLD, &nth);
    if (number == MAHQURITH_LIST_BROKEN)
        number = list_marked(b, s, &own, MAHQURITH_OF_NEW, &nth);
    if (number != MAHQURITH_LIST_BROKEN)
        return number;
    return mahqurith_activate(RECORD(&b->slots[s].record), BYTES(own.previous), BYTES(own.rack), BYTES(own.bundle)).number;
}
