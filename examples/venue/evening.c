/* The story: a matinee, a power failure, an evening with a handover in the interval, and eight things that must not work. */
#include "venue.h"

static desk console;
static list lists[RACKS];
static pile matinee, tonight, finals, bundle;

void must(bool holds, const char *what) {
    if (holds)
        return;
    fflush(stdout);
    fprintf(stderr, "venue: this does not hold: %s\n", what);
    exit(1);
}

static void refused(uint32_t number, uint32_t expected, const char *meaning) {
    printf("   Refused with %u: %s.\n", number, meaning);
    must(number == expected, "this refusal is the expected one");
}

static void persons(int position) {
    for (int i = 0; i < HOUSE; i++)
        turn(i, position);
}

/* A person compares the messenger's list with the keys on the boxes. */
static void wake(int rack) {
    list *l = &lists[rack];
    pile p = errand(WAKE, rack, 0, &(request){0});
    const reply *r = &p.voices[0].reply;
    must(p.count == 1 && r->length == sizeof l->bytes + sizeof l->evidence, "the messenger brings a list");
    l->length = sizeof l->bytes;
    memcpy(l->bytes, r->bytes, sizeof l->bytes);
    memcpy(l->evidence, r->bytes + sizeof l->bytes, sizeof l->evidence);
    mahqurith_rack named = mahqurith_read_rack(BYTES(*l)).rack;
    for (int member = 0; member < BOXES; member++) {
        uint8_t key[MAHQURITH_KEY];
        bool listed = false;
        read_key(rack, member, key);
        for (size_t i = 0; i < named.count; i++)
            listed |= memcmp(named.keys[i], key, MAHQURITH_KEY) == 0;
        must(listed, "the list has the keys of the boxes");
    }
}

/* The text goes to the messenger's store before its digest goes to the boxes. */
static void keep(const char *cue, uint64_t height, uint8_t entry[MAHQURITH_DIGEST]) {
    request q = {.asked.expected = height, .roll = {strlen(cue), (uint8_t *)cue}};
    memcpy(q.asked.label, console.question.label, MAHQURITH_LABEL);
    errand(KEEP, A, 0, &q);
    digest_text(cue, entry);
}

/* How many boxes sign what is to be appended; the desk accepts it. */
static size_t appended(int rack, const request *q) {
    pile p = errand(CARRY, rack, 0, q);
    mahqurith_finding found = desk_judge(&console, &console.list, &p);
    must(desk_keeps(&console, q, &found), "the desk accepts what it appends");
    return p.count;
}

static void record_cue(int rack, const char *cue) {
    request q = desk_ask(&console, MAHQURITH_APPEND);
    q.asked.expected = console.seen.height + 1;
    keep(cue, q.asked.expected, q.asked.entry);
    printf("%s. %zu of 5 boxes sign: recorded.\n", cue, appended(rack, &q));
}

/* The cues of a scene, recorded at one press: each box signs once. */
static void record_scene(int rack, const char *scene, int cues) {
    uint8_t entries[MAHQURITH_ENTRIES][MAHQURITH_DIGEST];
    request q = desk_ask(&console, MAHQURITH_APPEND);
    int first = (int)console.seen.height + 1;
    q.call = ASK_APPEND_MANY;
    q.asked.expected = (uint64_t)first;
    q.entries = (span){(size_t)cues * MAHQURITH_DIGEST, entries[0]};
    for (int i = 0; i < cues; i++) {
        char cue[64];
        snprintf(cue, sizeof cue, "Cue %d: %s, %d of %d", first + i, scene, i + 1, cues);
        keep(cue, (uint64_t)(first + i), entries[i]);
    }
    printf("Cues %d to %d: %s, %d cues recorded at one press. %zu of 5 boxes sign, each of them once.\n", first, first + cues - 1, scene, cues,
           appended(rack, &q));
}

/* The replies to a reading with a new nonce. */
static pile ask(int rack) {
    request q = desk_ask(&console, MAHQURITH_READ);
    return errand(CARRY, rack, 0, &q);
}

static pile open_ledger(int rack) {
    pile p = ask(rack);
    mahqurith_finding found = desk_judge(&console, &console.list, &p);
    const uint8_t *tail = found.tail;
    must(desk_opens(&console, &found), "the desk opens the ledger");
    printf("The desk opens the ledger: %zu of 5 boxes reply and agree on %d cues, newest hash %02x%02x%02x%02x.\n"
           "The texts on the server fit this hash.\n", p.count, (int)found.height, tail[0], tail[1], tail[2], tail[3]);
    return p;
}

static void found_rack(void) {
    puts("\nTHE RACK IS FOUNDED\nFive boxes wake, a person at each, and make a key of their own: A1 to A5, together rack A.");
    persons(SOMEBODY);
    wake(A);
    request q = {.call = ASK_INITIALISE, .rack = {lists[A].length, lists[A].bytes}};
    must(errand(CARRY, A, 0, &q).count == BOXES, "five boxes found the rack");
    persons(NOBODY);
    mahqurith_rack_digest(BYTES(lists[A]), console.question.identity, MAHQURITH_DIGEST);
    memcpy(console.question.label, "tour, cue edits", MAHQURITH_LABEL);
    console.list = lists[A];
    q = desk_ask(&console, MAHQURITH_NEW);
    pull(box_of(A, 3));
    pile p = errand(CARRY, A, 0, &q);
    plug(box_of(A, 3));
    must(desk_judge(&console, &lists[A], &p).number == MAHQURITH_ACCEPTED, "the desk accepts a new ledger");
    puts("The desk notes the rack's identity, for the whole tour, and has a ledger made for the cue edits.\n"
         "Box A4 is without power and misses that: it has no such ledger, and signs no cue of it.");
}

static void before_the_interval(void) {
    puts("\nTHE MATINEE");
    record_cue(A, "Cue 1: house lights to half, 5 seconds");
    record_cue(A, "Cue 2: moonlight from stage left at 40 percent");
    matinee = open_ledger(A);
    puts("The power fails in the whole house. Every box starts again, with the record that it had stored.");
    for (int i = 0; i < HOUSE; i++)
        pull(i);
    for (int i = 0; i < HOUSE; i++)
        plug(i);
    puts("\nTHE EVENING, FIRST HALF");
    record_cue(A, "Cue 3: moonlight at 55 percent, as 40 was too dark");
    puts("Box A5 is out of reach for one cue.");
    pull(box_of(A, 4));
    record_cue(A, "Cue 4: blackout at the end of the act");
    plug(box_of(A, 4));
}

/* What a box of rack B answers to a bundle. */
static uint32_t answer_to_bundle(int member, pile *brought) {
    reply *h = &brought->voices[0].reply, *proofs = &brought->voices[1].reply;
    request q = {.call = ASK_ACTIVATE, .previous = {lists[A].length, lists[A].bytes}, .rack = {lists[B].length, lists[B].bytes},
                 .bundle = {h->length, h->bytes}, .proofs = {proofs->length, proofs->bytes}};
    pile p = errand(PASS, B, member, &q);
    must(p.count == 1, "the box replies");
    return p.voices[0].reply.number;
}

static void interval(void) {
    puts("\nTHE INTERVAL\nBox A3 dies. The four others and a spare each make a new key, with an empty record: B1 to B5, together rack B.");
    pull(box_of(A, 2));
    persons(SOMEBODY);
    wake(B);
    request q = {0};
    memcpy(q.asked.identity, console.question.identity, MAHQURITH_DIGEST);
    finals = errand(HAND_OVER, A, 0, &q);
    persons(NOBODY);
    must(finals.count == 4, "four boxes finalise");
    puts("Boxes A1, A2, A4 and A5 sign what they have and that rack B follows. Then their chips erase the keys: rack A is retired.");
    bundle = errand(BUNDLE, A, 0, &q);
    for (int member = 0; member < 4; member++)
        must(answer_to_bundle(member, &bundle) == MAHQURITH_ACCEPTED, "a box is activated");
    pull(box_of(B, 4));
    pile first = ask(B);
    mahqurith_finding found = desk_judge(&console, &lists[B], &first);
    must(desk_takes(&console, &lists[B], &found), "the desk takes the new rack");
    puts("The messenger has the library make the newest list. In the store it finds the cue that box A5 missed, and all four cues for\n"
         "box A4, whose list lacks the ledger. Other lists have it, so that it stops nothing.\n"
         "Boxes B1 to B5 take the newest list over and sign that they did, but do not use it yet.\n"
         "The library makes the bundle, and the messenger brings it to each of them with the signatures of both racks.\n"
         "Boxes B1 to B4 have their own chips check it and find all of it good: they are active.\n"
         "Box B5 has a loose cable and waits for its bundle.");
}

static void asked_of_rack_a(void) {
    puts("1. One box alone. Box A3 is mended and knows of no handover: with the desk's new nonce it signs the list without cue 5.");
    plug(box_of(A, 2));
    pile p = ask(A);
    must(p.count == 1, "one box of rack A still signs");
    refused(desk_judge(&console, &lists[A], &p).number, MAHQURITH_TOO_FEW, "one box is not more than half of a rack of five");
    puts("2. A retired rack asked again. The messenger asks box A1 for the list.");
    request q = desk_ask(&console, MAHQURITH_READ);
    p = errand(PASS, A, 0, &q);
    refused(p.voices[0].reply.number, MAHQURITH_NOT_ACTIVE, "the box is not active, since it is retired");
    must(!has_key(box_of(A, 0), A), "the key is erased");
    puts("   Its chip could not sign either: the key is erased.");
}

static void brought_to_the_desk(void) {
    puts("3. The list of the show before. The messenger brings the matinee's reading, signed by four boxes of rack A.");
    pile p = ask(B);
    refused(desk_judge(&console, &lists[B], &matinee).number, MAHQURITH_STATEMENT_NOT_ASKED, "it speaks of rack A, and the desk asks rack B");
    puts("   The messenger says that rack A is the one to ask.");
    refused(desk_judge(&console, &lists[A], &matinee).number, MAHQURITH_NONCE_DIFFERS, "it has the nonce of the matinee");
    puts("4. A replayed nonce. The messenger brings tonight's reading once more, signed by three boxes of rack B.");
    refused(desk_judge(&console, &lists[B], &tonight).number, MAHQURITH_NONCE_DIFFERS, "it has the nonce of an earlier question");
    puts("5. A signature listed twice. The messenger brings new signatures of two boxes, one of them twice, to make three.");
    p.voices[2] = p.voices[1];
    refused(desk_judge(&console, &lists[B], &p).number, MAHQURITH_LIST_BROKEN, "a list names each box once at most");
}

/* Which of what the boxes left is a member's. */
static size_t final_of(int member) {
    for (size_t i = 0; i < finals.count; i++)
        if (finals.voices[i].member == member)
            return i;
    must(false, "a box has finalised");
    return 0;
}

/* Where an old entry begins in the bundle, or the new ones with their count. */
static size_t entry_of(size_t old) {
    const uint8_t *bytes = bundle.voices[0].reply.bytes;
    size_t place = 1;
    while (old-- > 0)
        place += 3 + (size_t)MAHQURITH_BLOCK * bytes[place + 2];
    return place;
}

/* Where the digests that an old list lacks begin in the bundle. */
static size_t missing_of(size_t old) {
    const uint8_t *bytes = bundle.voices[0].reply.bytes;
    size_t place = entry_of(bytes[0]);
    place += 1 + 2 * (size_t)bytes[place];
    while (old-- > 0)
        place += 2 + (size_t)MAHQURITH_DIGEST * bytes[place + 1];
    return place + 2;
}

static void forged_bundle(void) {
    static pile forged;
    size_t a2 = final_of(1), a5 = final_of(4);
    plug(box_of(B, 4));
    forged = bundle;
    puts("6. A forged bundle. Box B5 still waits. The messenger puts box A5's older list in the place of what box A2 signed.");
    memcpy(forged.voices[0].reply.bytes + entry_of(a2) + 3,
           finals.voices[a5].reply.bytes + MAHQURITH_HANDOVER, MAHQURITH_BLOCK);
    refused(answer_to_bundle(4, &forged), MAHQURITH_SIGNATURE_NOT_VALID, "box A2's signature is not valid for this list");
    puts("   The messenger puts a cue of its own in the place of the one that box A5 missed.");
    forged = bundle;
    forged.voices[0].reply.bytes[missing_of(a5)] ^= 1;
    refused(answer_to_bundle(4, &forged), MAHQURITH_NOT_DERIVED, "box A5's list and this cue do not give the newest list");
    must(answer_to_bundle(4, &bundle) == MAHQURITH_ACCEPTED, "the true bundle is accepted");
    puts("   With the true bundle box B5 becomes active.");
}

static void two_heirs(void) {
    uint8_t alone[1 + MAHQURITH_KEY] = {1};
    const reply *first = &finals.voices[final_of(0)].reply;
    puts("7. Two heirs. The messenger asks box A1 to finalise again, and names box A3 alone as the next rack.");
    read_key(A, 2, alone + 1);
    request q = {.call = ASK_FINALISE, .rack = {sizeof alone, alone}};
    refused(errand(PASS, A, 0, &q).voices[0].reply.number, NO_PERSON, "nobody is at the box");
    puts("   A person is at the box, and turns its key switch.");
    turn(box_of(A, 0), SOMEBODY);
    pile p = errand(PASS, A, 0, &q);
    const reply *again = &p.voices[0].reply;
    must(p.count == 1 && again->number == MAHQURITH_ACCEPTED, "a second finalise is a repeat");
    must(again->length == first->length && memcmp(again->bytes, first->bytes, first->length) == 0, "a second finalise gives the first statement");
    must(memcmp(again->signatures[0], first->signatures[0], SIGNATURE) == 0, "and the first signature, which the box has stored");
    puts("   Not refused, and of no use: the box repeats its first statement, which names rack B, and signs nothing.");
}

/* What box B1 answers where a ledger is to be made; the first byte of its label names the company. */
static uint32_t answer_to_new(uint8_t company, uint8_t number) {
    request q = {.call = ASK_NEW, .asked.label = {company, number}};
    pile p = errand(PASS, B, 0, &q);
    must(p.count == 1, "the box replies");
    return p.voices[0].reply.number;
}

static void whole_building(void) {
    uint8_t made = 0;
    puts("8. The whole building. A dance company shares the boxes. In its name the messenger has one ledger after the other made at box B1.");
    while (made < MAHQURITH_ROWS && answer_to_new(128, made) == MAHQURITH_ACCEPTED)
        made++;
    must(made == 31, "a company gets 31 ledgers");
    refused(answer_to_new(128, made), MAHQURITH_COMPANY_FULL, "31 ledgers of a company are all that it gets");
    must(answer_to_new('t', 0) == MAHQURITH_ACCEPTED, "the other company gets a ledger");
    puts("   The opera's next ledger is made all the same: its room is its own.");
}

int main(int count, char **words) {
    must(count == 4, "use: evening BOX MESSENGER FOLDER");
    setvbuf(stdout, NULL, _IOLBF, 0);
    house_opens(words[1], words[2], words[3], console.root);
    puts("Boxes keep the newest hash of a ledger of cue edits, and sign it. The desk believes more than half of a rack of boxes.\n"
         "In each question it puts a new number, the nonce, which must come back signed. The messenger between them,\n"
         "the venue's server, keeps the texts of the cues and is trusted with nothing. Each of them is a process of its own.");
    found_rack();
    before_the_interval();
    interval();
    puts("\nTHE EVENING, SECOND HALF");
    record_cue(B, "Cue 5: sunrise, 90 seconds");
    record_scene(B, "the storm", 20);
    puts("Box B4 stops replying.");
    pull(box_of(B, 3));
    tonight = open_ledger(B);
    puts("\nWHAT MUST NOT WORK");
    asked_of_rack_a();
    brought_to_the_desk();
    forged_bundle();
    two_heirs();
    whole_building();
    puts("\nTHE MORNING\nThe desk has written a receipt of each of its verdicts to a file, of those that refuse too. The electrician has this report of it:");
}
