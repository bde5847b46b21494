/* The desk: it asks, has its chip check every signature and every key's evidence, and believes nothing but the library's verdict. */
#include "venue.h"

#include <fcntl.h>
#include <unistd.h>

void digest_text(const char *text, uint8_t digest[MAHQURITH_DIGEST]) {
    must(mahqurith_sha256((const uint8_t *)text, strlen(text), digest) == MAHQURITH_ACCEPTED, "a text is hashed");
}

/* The request to the boxes that a kind of statement is asked by. */
static uint8_t call_of(uint8_t kind) { return kind == MAHQURITH_NEW ? ASK_NEW : kind == MAHQURITH_APPEND ? ASK_APPEND : ASK_READ; }

/* Each question has a nonce of its own. A true desk draws it by chance, so that nobody asks the boxes ahead; here it counts. */
request desk_ask(desk *d, uint8_t kind) {
    request q = {.call = call_of(kind)};
    d->question.kind = kind;
    d->question.nonce[MAHQURITH_NONCE - 1]++;
    memcpy(q.asked.nonce, d->question.nonce, MAHQURITH_NONCE);
    memcpy(q.asked.label, d->question.label, MAHQURITH_LABEL);
    return q;
}

static uint8_t marks_of(const desk *d, const list *rack, const voice *v, const reply *said) {
    mahqurith_rack named = mahqurith_read_rack(BYTES(*rack)).rack;
    if (v->position >= named.count || v->position >= BOXES)
        return 0;
    return chip_marks(d->root, named.keys[v->position], rack->evidence[v->position], said->bytes, said->length, v->reply.signatures[0]);
}

/* THE NIGHT'S FILE, for the report in the morning */

static void file_block(mahqurith_written w, const uint8_t block[MAHQURITH_BLOCK]) {
    int file = open("night", O_WRONLY | O_CREAT | O_APPEND | O_CLOEXEC, 0600);
    must(w.number == MAHQURITH_ACCEPTED, "a block is laid out");
    must(file >= 0 && write(file, block, w.written) == (ssize_t)w.written && fsync(file) == 0 && close(file) == 0, "the desk writes a block");
}

/* A receipt is judged in the morning under the nearest rack before it: a verdict under another rack has that one written first. */
static void file_rack(desk *d, const list *rack) {
    uint8_t block[MAHQURITH_BLOCK];
    if (d->filed.length == rack->length && memcmp(d->filed.bytes, rack->bytes, rack->length) == 0)
        return;
    file_block(mahqurith_write_rack_block(BYTES(*rack), block, sizeof block), block);
    d->filed = *rack;
}

/* A statement too long for a block is none; without one a receipt is refused in the morning with the same number. */
static void file_receipt(const desk *d, const reply *said, const uint8_t *signers, size_t length) {
    uint8_t block[MAHQURITH_BLOCK];
    size_t stated = said->length <= MAHQURITH_READING ? said->length : 0;
    file_block(mahqurith_write_receipt(d->question, said->bytes, stated, signers, length, block, sizeof block), block);
}

/* The verdict on the first reply's statement. Listed are the boxes that the desk's chip found attested, with a valid signature on it. */
mahqurith_finding desk_judge(desk *d, const list *rack, const pile *p) {
    const reply *said = &p->voices[0].reply;
    uint8_t signers[2 * BOXES];
    size_t length = 0;
    for (size_t i = 0; i < p->count; i++) {
        uint8_t marks = marks_of(d, rack, &p->voices[i], said);
        if (marks != GOOD)
            continue;
        signers[length++] = p->voices[i].position;
        signers[length++] = marks;
    }
    file_rack(d, rack);
    file_receipt(d, said, signers, length);
    return mahqurith_verdict(d->question, BYTES(*rack), said->bytes, said->length, signers, length);
}

static bool is_at(const mahqurith_finding *found, uint64_t height, const uint8_t tail[MAHQURITH_DIGEST]) {
    return found->number == MAHQURITH_ACCEPTED && found->height == height && memcmp(found->tail, tail, MAHQURITH_DIGEST) == 0;
}

/* Whether what was found is what the desk asked to append, after what it last saw: an old receipt has good signatures too. */
bool desk_keeps(desk *d, const request *q, const mahqurith_finding *found) {
    bool many = q->call == ASK_APPEND_MANY;
    const uint8_t *entries = many ? q->entries.bytes : q->asked.entry;
    size_t count = many ? q->entries.length / MAHQURITH_DIGEST : 1;
    uint8_t tail[MAHQURITH_DIGEST];
    memcpy(tail, d->seen.tail, MAHQURITH_DIGEST);
    for (size_t i = 0; i < count; i++)
        mahqurith_tail_after(tail, entries + i * MAHQURITH_DIGEST);
    bool kept = is_at(found, d->seen.height + count, tail);
    if (kept)
        d->seen = *found;
    return kept;
}

/* Not below what the desk last saw, and no other tail at that height. */
static bool is_no_older(const desk *d, const mahqurith_finding *found) {
    return found->number == MAHQURITH_ACCEPTED && (found->height > d->seen.height || is_at(found, d->seen.height, d->seen.tail));
}

/* The messenger's text at a height, hashed; false where it brings none. */
static bool text_hashed(const desk *d, uint64_t height, uint8_t entry[MAHQURITH_DIGEST]) {
    request q = {.asked.expected = height};
    memcpy(q.asked.label, d->question.label, MAHQURITH_LABEL);
    pile p = errand(LOOK, A, 0, &q);
    const uint8_t *block = p.voices[0].reply.bytes;
    size_t length = (size_t)block[MAHQURITH_STORED_LENGTH] << 8 | block[MAHQURITH_STORED_LENGTH + 1];
    return p.count == 1 && length <= MAHQURITH_TEXT && mahqurith_sha256(block + MAHQURITH_STORED_TEXT, length, entry) == MAHQURITH_ACCEPTED;
}

/* Whether the messenger's cues are the ledger that was found: each text is hashed and appended to the tail of those before it. */
bool desk_opens(desk *d, const mahqurith_finding *found) {
    uint8_t tail[MAHQURITH_DIGEST] = {0}, entry[MAHQURITH_DIGEST];
    uint64_t height = 0;
    while (height < found->height && text_hashed(d, height + 1, entry)) {
        mahqurith_tail_after(tail, entry);
        height++;
    }
    bool opened = is_no_older(d, found) && is_at(found, height, tail);
    if (opened)
        d->seen = *found;
    return opened;
}

/* A rack that the messenger names is asked from now on if a reading by it was accepted; below the least size a person would be asked. */
bool desk_takes(desk *d, const list *rack, const mahqurith_finding *found) {
    bool taken = is_no_older(d, found) && mahqurith_read_rack(BYTES(*rack)).rack.count >= LEAST;
    if (taken)
        d->list = *rack;
    return taken;
}
