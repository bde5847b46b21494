/* The messenger, the venue's server: messenger FOLDER. It carries, collects and writes lists, and keeps the texts of the cues. Nobody has to trust it. */
#include "venue.h"

#include <fcntl.h>
#include <sys/socket.h>
#include <sys/un.h>
#include <unistd.h>

static struct { list list; uint8_t member_at[BOXES]; } racks[RACKS];
static pile finals, initials;
static uint8_t store[32 * MAHQURITH_BLOCK], root[MAHQURITH_KEY];

void must(bool holds, const char *what) {
    if (holds)
        return;
    fprintf(stderr, "messenger: this does not hold: %s\n", what);
    exit(1);
}

static span span_of(const list *l) { return (span){l->length, (uint8_t *)l->bytes}; }

/* False where the box is dark. */
static bool passed(int rack, uint8_t member, const request *q, reply *r) {
    static frame f;
    char path[32];
    request own = *q;
    own.slot = (uint8_t)rack;
    snprintf(path, sizeof path, "box%d/socket", box_of(rack, member));
    int wire = wire_to(path);
    request_written(&own, &f);
    bool answered = wire >= 0 && frame_sent(wire, &f) && frame_taken(wire, &f) && reply_read(r, &f);
    if (wire >= 0)
        close(wire);
    return answered;
}

static pile carry(int rack, const request *q) {
    pile p = {0};
    for (uint8_t i = 0; i < BOXES; i++) {
        voice *v = &p.voices[p.count];
        v->position = i;
        v->member = racks[rack].member_at[i];
        if (passed(rack, v->member, q, &v->reply) && v->reply.number == MAHQURITH_ACCEPTED)
            p.count++;
    }
    return p;
}

/* Wakes the boxes of a rack, and writes its list in the order of their keys. */
static pile wake(int rack) {
    mahqurith_rack keys = {.count = BOXES};
    list *l = &racks[rack].list;
    pile woken = {0};
    for (uint8_t member = 0; member < BOXES; member++) {
        voice one = {.member = member};
        size_t i = member;
        must(passed(rack, member, &(request){.call = ASK_WAKE}, &one.reply) && one.reply.number == MAHQURITH_ACCEPTED, "a box wakes");
        for (; i > 0 && memcmp(woken.voices[i - 1].reply.key, one.reply.key, MAHQURITH_KEY) > 0; i--)
            woken.voices[i] = woken.voices[i - 1];
        woken.voices[i] = one;
    }
    for (size_t i = 0; i < BOXES; i++) {
        racks[rack].member_at[i] = woken.voices[i].member;
        memcpy(keys.keys[i], woken.voices[i].reply.key, MAHQURITH_KEY);
        memcpy(l->evidence[i], woken.voices[i].reply.evidence, EVIDENCE);
    }
    l->length = mahqurith_write_rack(keys, l->bytes, sizeof l->bytes).written;
    pile p = {.count = 1, .voices[0].reply.length = (uint32_t)(sizeof l->bytes + sizeof l->evidence)};
    memcpy(p.voices[0].reply.bytes, l->bytes, sizeof l->bytes);
    memcpy(p.voices[0].reply.bytes + sizeof l->bytes, l->evidence, sizeof l->evidence);
    return p;
}

/* THE STORE, on the medium before the entry goes to the boxes */

static mahqurith_place place_of(const uint8_t label[MAHQURITH_LABEL], uint64_t height) {
    mahqurith_place place = {.height = height};
    memcpy(place.label, label, MAHQURITH_LABEL);
    return place;
}

static void keep(const request *q) {
    mahqurith_stored kept = mahqurith_store_append(store, sizeof store, place_of(q->asked.label, q->asked.expected), BYTES(q->roll));
    int file = open("store", O_WRONLY | O_CREAT, 0600);
    must(kept.number == MAHQURITH_ACCEPTED, "the store takes a cue");
    must(file >= 0 && pwrite(file, store, sizeof store, 0) == sizeof store && fsync(file) == 0 && close(file) == 0, "the store is on the medium");
}

static pile look(const request *q) {
    pile p = {.voices[0].reply.length = MAHQURITH_BLOCK};
    mahqurith_place place = place_of(q->asked.label, q->asked.expected);
    p.count = mahqurith_store_read(store, sizeof store, place, p.voices[0].reply.bytes, MAHQURITH_BLOCK).number == MAHQURITH_ACCEPTED;
    return p;
}

/* THE HANDOVER */

static span roll_of(voice *v) { return (span){v->reply.length - MAHQURITH_HANDOVER, v->reply.bytes + MAHQURITH_HANDOVER}; }

/* Of what the boxes of a rack signed, what the messenger's own chip finds good: an entry that is not would refuse the whole bundle. */
static pile good_of(int rack, const pile *signed_by) {
    const list *l = &racks[rack].list;
    pile p = {0};
    for (size_t i = 0; i < signed_by->count; i++) {
        const voice *v = &signed_by->voices[i];
        const uint8_t *key = l->bytes + 1 + MAHQURITH_KEY * v->position;
        if (chip_marks(root, key, l->evidence[v->position], v->reply.bytes, MAHQURITH_HANDOVER, v->reply.signatures[0]) == GOOD)
            p.voices[p.count++] = *v;
    }
    return p;
}

static void put(reply *r, const void *bytes, size_t length) {
    must(length <= sizeof r->bytes - r->length, "a bundle has room");
    memcpy(r->bytes + r->length, bytes, length);
    r->length += (uint32_t)length;
}

static void put_list(reply *entries, int rack, pile *p) {
    put(entries, (uint8_t[]){(uint8_t)p->count}, 1);
    for (size_t i = 0; i < p->count; i++) {
        voice *v = &p->voices[i];
        span roll = rack == A ? roll_of(v) : (span){0, v->reply.bytes};
        put(entries, (uint8_t[]){v->position, GOOD, (uint8_t)(roll.length / MAHQURITH_BLOCK)}, rack == A ? 3 : 2);
        put(entries, BYTES(roll));
    }
}

/* The library makes roll and bundle: of what rack A's boxes signed at last, of the new entries, and of the store, where it finds what a box has missed. */
static void make(pile *news, reply *roll, reply *bundle) {
    reply entries = {0};
    put_list(&entries, A, &finals);
    put_list(&entries, B, news);
    mahqurith_made made = mahqurith_make_bundle(BYTES(racks[A].list), BYTES(racks[B].list), BYTES(entries), store, sizeof store, roll->bytes,
                                                sizeof roll->bytes, bundle->bytes, sizeof bundle->bytes);
    must(made.number == MAHQURITH_ACCEPTED, "roll and bundle are made");
    roll->length = (uint32_t)made.roll;
    bundle->length = (uint32_t)made.bundle;
}

/* The roll does not go by the new entries: with those that are hoped for it is made before rack B has signed anything. */
static pile hand_over(const request *q) {
    request final = {.call = ASK_FINALISE, .rack = span_of(&racks[B].list)}, initial = {.call = ASK_INITIALISE, .rack = span_of(&racks[B].list)};
    pile hoped = {.count = BOXES}, said = carry(A, &final);
    reply roll, bundle;
    finals = good_of(A, &said);
    for (uint8_t i = 0; i < BOXES; i++)
        hoped.voices[i].position = i;
    make(&hoped, &roll, &bundle);
    memcpy(initial.asked.identity, q->asked.identity, MAHQURITH_DIGEST);
    initial.roll = (span){roll.length, roll.bytes};
    initial.previous = span_of(&racks[A].list);
    said = carry(B, &initial);
    initials = good_of(B, &said);
    return finals;
}

static void put_proofs(reply *proofs, int rack, const pile *p) {
    for (size_t i = 0; i < p->count; i++) {
        put(proofs, p->voices[i].reply.signatures[0], SIGNATURE);
        put(proofs, racks[rack].list.evidence[p->voices[i].position], EVIDENCE);
    }
}

static pile bundle(void) {
    pile p = {.count = 2};
    reply roll;
    make(&initials, &roll, &p.voices[0].reply);
    put_proofs(&p.voices[1].reply, A, &finals);
    put_proofs(&p.voices[1].reply, B, &initials);
    return p;
}

/* ERRANDS */

static pile done(uint8_t kind, int rack, uint8_t member, const request *q) {
    pile one = {.voices[0].member = member};
    switch (kind) {
    case WAKE: return wake(rack);
    case CARRY: return carry(rack, q);
    case PASS: one.count = passed(rack, member, q, &one.voices[0].reply); return one;
    case KEEP: keep(q); return one;
    case LOOK: return look(q);
    case HAND_OVER: return hand_over(q);
    default: return bundle();
    }
}

static void answer(int asker) {
    static frame head, f;
    request q;
    if (!frame_taken(asker, &head) || head.length != 3 || !frame_taken(asker, &f) || !request_read(&q, &f) || head.bytes[1] >= RACKS || head.bytes[2] >= BOXES)
        return;
    pile p = done(head.bytes[0], head.bytes[1], head.bytes[2], &q);
    head = (frame){.length = 1, .bytes = {(uint8_t)p.count}};
    frame_sent(asker, &head);
    for (size_t i = 0; i < p.count; i++) {
        head = (frame){.length = 2, .bytes = {p.voices[i].member, p.voices[i].position}};
        reply_written(&p.voices[i].reply, &f);
        frame_sent(asker, &head);
        frame_sent(asker, &f);
    }
}

int main(int count, char **words) {
    struct sockaddr_un address = {.sun_family = AF_UNIX, .sun_path = "messenger"};
    must(count == 2 && chdir(words[1]) == 0, "use: messenger FOLDER");
    int file = open("root", O_RDONLY | O_CLOEXEC);
    must(file >= 0 && read(file, root, sizeof root) == sizeof root && close(file) == 0, "the messenger has the maker's root");
    int ear = socket(AF_UNIX, SOCK_STREAM, 0);
    unlink(address.sun_path);
    must(ear >= 0 && bind(ear, (struct sockaddr *)&address, sizeof address) == 0 && listen(ear, 8) == 0, "the messenger listens");
    for (int asker;;) {
        must((asker = accept(ear, NULL, NULL)) >= 0, "somebody asks");
        answer(asker);
        close(asker);
    }
}
