/* Storing and Loading of docs/INTEGRATION.md: two copies and a flip, which has the number of the copy that counts. */
#include "box.h"

static bool check_of(const record *r, uint8_t check[MAHQURITH_DIGEST]) {
    return mahqurith_sha256((const uint8_t *)r, offsetof(record, check), check) == MAHQURITH_ACCEPTED;
}

static int copy_of(uint64_t number) { return (int)(number % 2); }

/* Only when this is true is the slot's record stored, and only then may the chip sign. */
bool stored(box *b, int s) {
    machine *m = b->machine;
    record *r = &b->slots[s].record;
    r->number++;
    return check_of(r, r->check) && m->write(m, s, copy_of(r->number), r, sizeof *r) && GUARD(FLUSH_BEFORE_THE_FLIP, m->flush(m, s)) &&
           m->write(m, s, FLIP, &r->number, sizeof r->number) && GUARD(FLUSH_AFTER_THE_FLIP, m->flush(m, s));
}

static bool is_whole(const record *r, uint64_t number) {
    uint8_t check[MAHQURITH_DIGEST];
    return GUARD(HOLD_THE_CHECK, check_of(r, check) && memcmp(check, r->check, sizeof check) == 0) && GUARD(HOLD_THE_NUMBER, r->number == number);
}

/* The flush comes first: a program that was killed has left writes that the medium may not have. Without a record the number goes on from the flip's. */
found loaded(box *b, int s) {
    machine *m = b->machine;
    record *r = &b->slots[s].record;
    uint64_t number = 0;
    if (!GUARD(FLUSH_BEFORE_READING, m->flush(m, s)) || !m->read(m, s, FLIP, &number, sizeof number) || !m->read(m, s, copy_of(number), r, sizeof *r))
        return KEPT(STOP_WHERE_STORAGE_CANNOT_BE_READ) ? UNREADABLE : GONE;
    if (is_whole(r, number) || NEVER(TAKE_THE_OTHER_COPY, m->read(m, s, copy_of(number + 1), r, sizeof *r) && is_whole(r, r->number)))
        return THERE;
    memset(r, 0, sizeof *r);
    r->number = number;
    return GONE;
}
