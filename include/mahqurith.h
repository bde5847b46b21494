/*
 * Mahqurith: the keeper's calls, the desk's verdict, the messenger's store and its maker of bundles, the layouts and the hash,
 * for C11 and C++17 on x86-64. The archive has code for x86-64 and for no other processor.
 *
 * Every function accepts any values and any bytes, keeps nothing between calls, allocates nothing and ends. Faulty input
 * is refused with one of the numbers below. A refusal changes no byte of head, rows, area, output, roll or bundle.
 *
 * Arguments come in one order: the keeper's record (head, rows and how many rows), the store's area or the bundle that is
 * marked (a pointer and a length), what is asked at fixed sizes, the messages (each a pointer and a length), the output area
 * (a pointer and a length; of the maker two of them, the roll's and the bundle's).
 *
 * An accepted call answers 0 and how many bytes it wrote: the first of the area. The rest of the area stays.
 *
 * What a caller owes, all of it:
 *
 * - A pointer that comes with a length (rows with how many, messages, the area) may be null where that length is 0:
 *   founding has no roll and no previous rack. Any other pointer, head, digest, tail and entry among them, is not null.
 * - The memory is there, for as many bytes or rows as the length says; what is not const here can be written. A call
 *   that leaves the head writes no byte of it, and one that leaves the rows, or that refuses, writes none of these.
 * - Rows are aligned as C aligns a mahqurith_row: to eight bytes.
 * - What is written overlaps nothing: head, rows, area, output, the maker's roll and bundle, and digest neither one another nor
 *   a message, tail not entry. Messages may overlap each other.
 * - One call at a time on a record or a store: while a call runs, no other call and nothing else reads or writes its head, rows or
 *   area or writes its messages, in whatever thread. Calls on different records may run side by side, and so may calls
 *   that take head and rows const on one record.
 *
 * What a box, a desk and a messenger must do around the calls is in docs/INTEGRATION.md; without it no signature is
 * worth anything.
 */
#ifndef MAHQURITH_H
#define MAHQURITH_H

#include <stdbool.h>
#include <stddef.h>
#include <stdint.h>

#ifdef __cplusplus
extern "C" {
#endif

/*
 * The version of this header and of the archive that ./build puts beside it; they belong together. MINOR rises with what
 * is added, so that a program for the earlier header is still right: a call, a name, a case that a call now accepts or now
 * refuses (any number but 0 is a refusal). MAJOR rises, and MINOR begins at 0, with all else: a name, a struct, a size or
 * the order of arguments that changes, or the bytes that are signed, stored or sent; boxes and desks of two MAJOR versions
 * are not to be mixed.
 */
#define MAHQURITH_VERSION_MAJOR 1
#define MAHQURITH_VERSION_MINOR 8

/*
 * Answers: 0, or the refusal's number; mahqurith_meaning says what each means. Tests are made in the order that each call
 * names; the first that fails answers.
 */
enum {
    MAHQURITH_ACCEPTED = 0,
    MAHQURITH_AREA_TOO_SHORT = 1,
    MAHQURITH_RECORD_NOT_SOUND = 2,
    MAHQURITH_NOT_BLANK = 3,
    MAHQURITH_NOT_ACTIVE = 4,
    MAHQURITH_NOT_PREPARED = 5,
    MAHQURITH_RACK_BROKEN = 6,
    MAHQURITH_KEY_NOT_IN_RACK = 7,
    MAHQURITH_ROLL_OR_RACK_ALONE = 8,
    MAHQURITH_LEDGER_EXISTS = 9,
    MAHQURITH_NO_SUCH_LEDGER = 10,
    MAHQURITH_OUT_OF_ORDER = 11,
    MAHQURITH_HEIGHT_AT_TOP = 12,
    MAHQURITH_TABLE_FULL = 13,
    MAHQURITH_LABEL_ZERO = 14,
    MAHQURITH_ROLL_BROKEN = 15,
    MAHQURITH_TOO_FEW = 16,
    MAHQURITH_NOT_ATTESTED = 17,
    MAHQURITH_SIGNATURE_NOT_VALID = 18,
    MAHQURITH_INITIALISE_NOT_VALID = 19,
    MAHQURITH_NOT_DERIVED = 20,
    MAHQURITH_DIGEST_DIFFERS = 21,
    MAHQURITH_LIST_BROKEN = 22,
    MAHQURITH_STATEMENT_NOT_ASKED = 23,
    MAHQURITH_NONCE_DIFFERS = 24,
    MAHQURITH_INPUT_TOO_LONG = 25,
    MAHQURITH_LIST_OF_WRONG_LENGTH = 32,
    MAHQURITH_TEXT_TOO_LONG = 33,
    MAHQURITH_STORE_FULL = 34,
    MAHQURITH_BLOCK_DAMAGED = 35,
    MAHQURITH_NOT_LEADING = 36,
    MAHQURITH_BUNDLE_TOO_LARGE = 37,
    MAHQURITH_RACK_OF_TWO = 38,
    MAHQURITH_COMPANY_FULL = 39
};

/* What an answer means, in English. Never null: a number that no call gives has a text that says so. */
static inline const char *mahqurith_meaning(uint32_t number)
{
    switch (number) {
    case MAHQURITH_ACCEPTED: return "accepted";
    case MAHQURITH_AREA_TOO_SHORT: return "output area shorter than the call's size";
    case MAHQURITH_RECORD_NOT_SOUND: return "record not sound";
    case MAHQURITH_NOT_BLANK: return "status is not blank";
    case MAHQURITH_NOT_ACTIVE: return "not active";
    case MAHQURITH_NOT_PREPARED: return "not prepared";
    case MAHQURITH_RACK_BROKEN: return "rack breaks the layout";
    case MAHQURITH_KEY_NOT_IN_RACK: return "own key not in own rack";
    case MAHQURITH_ROLL_OR_RACK_ALONE: return "roll without previous rack, or the reverse";
    case MAHQURITH_LEDGER_EXISTS: return "ledger exists";
    case MAHQURITH_NO_SUCH_LEDGER: return "no such ledger";
    case MAHQURITH_OUT_OF_ORDER: return "out of order; the present height is given";
    case MAHQURITH_HEIGHT_AT_TOP: return "height is 4,294,967,295";
    case MAHQURITH_TABLE_FULL: return "63 ledgers already";
    case MAHQURITH_LABEL_ZERO: return "label all zero";
    case MAHQURITH_ROLL_BROKEN: return "roll breaks the layout";
    case MAHQURITH_TOO_FEW: return "fewer entries than a majority";
    case MAHQURITH_NOT_ATTESTED: return "not attested";
    case MAHQURITH_SIGNATURE_NOT_VALID: return "finalise or receipt signature not valid";
    case MAHQURITH_INITIALISE_NOT_VALID: return "initialise signature not valid";
    case MAHQURITH_NOT_DERIVED: return "roll not derived";
    case MAHQURITH_DIGEST_DIFFERS: return "rack digest differs from the record's";
    case MAHQURITH_LIST_BROKEN: return "bundle or signer list breaks the layout";
    case MAHQURITH_STATEMENT_NOT_ASKED:
        return "statement is not the one asked for: length, layout, kind, identity, rack digest or label";
    case MAHQURITH_NONCE_DIFFERS: return "nonce differs";
    case MAHQURITH_INPUT_TOO_LONG: return "hash input over 65,536 bytes";
    case MAHQURITH_LIST_OF_WRONG_LENGTH: return "list of 0 or more than 32";
    case MAHQURITH_TEXT_TOO_LONG: return "text over 418 bytes";
    case MAHQURITH_STORE_FULL: return "every block of the store is used";
    case MAHQURITH_BLOCK_DAMAGED: return "no undamaged block answers, and the store holds a damaged one";
    case MAHQURITH_NOT_LEADING:
        return "the store's read refuses a needed entry, two highest rows differ, or the digests do not lead to the highest tail";
    case MAHQURITH_BUNDLE_TOO_LARGE: return "the roll passes 63 rows, a count 64 or the bundle its length";
    case MAHQURITH_RACK_OF_TWO: return "rack of two";
    case MAHQURITH_COMPANY_FULL: return "company with 31 rows or more";
    default: return "no answer of this library";
    }
}

/* Sizes in bytes, and how many there are at most. */
enum {
    MAHQURITH_KEY = 32,
    MAHQURITH_DIGEST = 32,
    MAHQURITH_LABEL = 16,
    MAHQURITH_NONCE = 16,
    MAHQURITH_KEYS = 15,          /* keys of a rack, at most */
    MAHQURITH_RACK = 481,         /* a rack of 15 */
    MAHQURITH_ROWS = 63,          /* rows of a record, exactly */
    MAHQURITH_ENTRIES = 32,       /* entry digests of Append many, at most */
    MAHQURITH_BLOCK = 512,        /* a roll travels in blocks */
    MAHQURITH_ROLL = 3584,        /* a roll of 63 rows: seven blocks */
    MAHQURITH_RECEIPT = 121,      /* statement of kind 1 or 2 */
    MAHQURITH_READING = 137,      /* statement of kind 3 */
    MAHQURITH_HANDOVER = 129,     /* statement of kind 4 or 5 */
    MAHQURITH_BOTH = 258,         /* Append and read: a receipt, then a reading */
    MAHQURITH_FINALISED = 3713,   /* Finalise: its statement, then up to seven blocks */
    MAHQURITH_BUNDLE = 65536,     /* a bundle, at most */
    MAHQURITH_HASH_INPUT = 65536, /* a message of the hash, at most */
    MAHQURITH_TEXT = 418,         /* a text of the store, at most */
    MAHQURITH_STORE = 65536       /* an area of the store, at most: 128 blocks */
};

/* The greatest height. */
#define MAHQURITH_TOP UINT64_C(4294967295)

/* Status of a keeper. */
enum { MAHQURITH_BLANK = 0, MAHQURITH_PREPARED = 1, MAHQURITH_ACTIVE = 2, MAHQURITH_FINAL = 3 };

/* Kinds of statement. */
enum { MAHQURITH_NEW = 1, MAHQURITH_APPEND = 2, MAHQURITH_READ = 3, MAHQURITH_FINALISE = 4, MAHQURITH_INITIALISE = 5 };

/* The two lists of a bundle. */
enum { MAHQURITH_OLD = 0, MAHQURITH_OF_NEW = 1 };

/* Bits of a marks byte: what the key chip found. The other bits are zero. */
enum { MAHQURITH_ATTESTED = 1, MAHQURITH_VALID = 2 };

/* A keeper's head. It belongs to the box and is kept over loss of power together with its rows; the calls alone write it. */
typedef struct {
    uint8_t status;
    uint8_t count;                       /* rows in use */
    uint8_t key[MAHQURITH_KEY];          /* the box's own key */
    uint8_t identity[MAHQURITH_DIGEST];  /* digest of the rack that was founded */
    uint8_t own[MAHQURITH_DIGEST];       /* rack digests; zero until they are set */
    uint8_t previous[MAHQURITH_DIGEST];
    uint8_t next[MAHQURITH_DIGEST];
} mahqurith_head;

/* A ledger's row: its newest hash and its height. */
typedef struct {
    uint8_t label[MAHQURITH_LABEL];
    uint8_t tail[MAHQURITH_DIGEST];
    uint64_t height;
} mahqurith_row;

/* What a keeper is asked, at fixed sizes. Each call reads the fields that it names and no other. */
typedef struct {
    uint8_t key[MAHQURITH_KEY];
    uint8_t identity[MAHQURITH_DIGEST];
    uint8_t label[MAHQURITH_LABEL];
    uint8_t entry[MAHQURITH_DIGEST];  /* digest of the entry to append */
    uint8_t nonce[MAHQURITH_NONCE];
    uint64_t expected;                /* the height that the entry is to have */
    uint64_t number;                  /* an entry of a bundle's list, from 0 */
    uint8_t list;                     /* MAHQURITH_OLD or MAHQURITH_OF_NEW */
} mahqurith_asked;

/* What a call answers. Fields that an answer does not name are zero. */
typedef struct {
    uint32_t number;  /* 0 or a refusal */
    size_t written;   /* bytes written to the area */
    uint64_t height;  /* with 11: the present height */
    bool repeat;      /* Finalise: the earlier statement again, with nothing to sign */
} mahqurith_answer;

/*
 * The keeper's calls.
 *
 * The chip signs, once each, the statements that Initialise, New, Append, Append many, Read, Append and read and Finalise
 * write, and nothing else: nothing after a refusal, nothing that is marked as a repeat, nothing that Bytes to check writes.
 * Head and rows are durable before the chip signs.
 */

/*
 * Reads key. The record becomes blank, whatever it was: the key is one that the chip has just made, and never again one
 * that was woken before. Refuses: 2, only where the rows are not 63.
 */
mahqurith_answer mahqurith_wake(mahqurith_head *head, mahqurith_row *rows, size_t row_count, mahqurith_asked asked);

/*
 * Reads identity. Area: MAHQURITH_HANDOVER. Refuses: 1, 2, 3, own rack 6, 38, 7, 8, previous rack 6, 15.
 * With roll and previous both of length 0 the rack is founded, the identity asked is not read and the status is active at
 * once; with both present the status is prepared, and roll and identity are taken unproved until Activate.
 */
mahqurith_answer mahqurith_initialise(mahqurith_head *head, mahqurith_row *rows, size_t row_count, mahqurith_asked asked,
                                      const uint8_t *roll, size_t roll_length, const uint8_t *previous,
                                      size_t previous_length, const uint8_t *own, size_t own_length, uint8_t *area,
                                      size_t area_length);

/*
 * Reads label. Area: MAHQURITH_RECEIPT. Refuses: 1, 2, 4, 14, 9, 39, 13. Labels whose first byte is below 128 are one company's,
 * the others another's. A company with 31 rows or more gets no new one; 13 is met only where an earlier roll brought rows.
 */
mahqurith_answer mahqurith_new(mahqurith_head *head, mahqurith_row *rows, size_t row_count, mahqurith_asked asked,
                               uint8_t *area, size_t area_length);

/* Reads label, entry, expected. Area: MAHQURITH_RECEIPT. Refuses: 1, 2, 4, 10, 11, 12. Expected is the row's height plus 1. */
mahqurith_answer mahqurith_append(mahqurith_head *head, mahqurith_row *rows, size_t row_count, mahqurith_asked asked,
                                  uint8_t *area, size_t area_length);

/*
 * Reads label, expected. The list is 1 to MAHQURITH_ENTRIES entry digests, one behind the other; expected is the row's height
 * plus 1, the first one's height. Area: MAHQURITH_RECEIPT. Refuses: 1, 2, 4, 32 (also where the length is not of whole
 * digests), 10, 11, 12 where any entry would pass the top. The record and the one statement are those after appending the
 * entries one by one; heights in between are signed by nobody. A refusal appends none of them.
 */
mahqurith_answer mahqurith_append_many(mahqurith_head *head, mahqurith_row *rows, size_t row_count, mahqurith_asked asked,
                                       const uint8_t *list, size_t list_length, uint8_t *area, size_t area_length);

/* Reads label, nonce. Area: MAHQURITH_READING. Refuses: 1, 2, 4, 10. Head and rows stay. */
mahqurith_answer mahqurith_read(const mahqurith_head *head, const mahqurith_row *rows, size_t row_count,
                                mahqurith_asked asked, uint8_t *area, size_t area_length);

/* Reads label, entry, expected, nonce. Area: MAHQURITH_BOTH. Refuses as Append. Two statements, each signed by itself. */
mahqurith_answer mahqurith_append_and_read(mahqurith_head *head, mahqurith_row *rows, size_t row_count,
                                           mahqurith_asked asked, uint8_t *area, size_t area_length);

/*
 * Area: MAHQURITH_FINALISED. Refuses: 1, 2, then 4, 6, 38. Writes the statement, then the roll's blocks. The chip signs the
 * statement (the first MAHQURITH_HANDOVER bytes), the box stores the signature, and only then the chip erases its key. A
 * keeper that is finalised already answers with its earlier statement and roll, does not read next, and marks the answer
 * as a repeat: there is nothing to sign.
 */
mahqurith_answer mahqurith_finalise(mahqurith_head *head, const mahqurith_row *rows, size_t row_count,
                                    const uint8_t *next, size_t next_length, uint8_t *area, size_t area_length);

/*
 * Writes nothing but the status. Refuses: 2, 5, 6 (previous, then own), 21, 22, 15, 16, then for each old entry 17, 18, for
 * each new entry 17, 19, then 20. The marks in the bundle are what this box's own chip found of the bytes that Bytes to
 * check gives; a messenger's marks are never passed on.
 */
mahqurith_answer mahqurith_activate(mahqurith_head *head, const mahqurith_row *rows, size_t row_count,
                                    const uint8_t *previous, size_t previous_length, const uint8_t *own,
                                    size_t own_length, const uint8_t *bundle, size_t bundle_length);

/*
 * Reads list, number. Area: MAHQURITH_HANDOVER. Refuses: 1, 2, 5, 6 (previous, then own), 21, 22, 15, then 22 where the list
 * has no such entry. Writes the statement that the entry's marks speak of: the chip checks the signature on these bytes and
 * signs nothing. Head and rows stay.
 */
mahqurith_answer mahqurith_bytes_to_check(const mahqurith_head *head, const mahqurith_row *rows, size_t row_count,
                                          mahqurith_asked asked, const uint8_t *previous, size_t previous_length,
                                          const uint8_t *own, size_t own_length, const uint8_t *bundle,
                                          size_t bundle_length, uint8_t *area, size_t area_length);

/*
 * The entries of a bundle, by list and number as Bytes to check takes them, for whoever sets the marks. Both calls take any
 * bytes as a bundle. They refuse with 22 where the list has no such entry: the bundle is longer than MAHQURITH_BUNDLE, there is
 * no such list, its count is not above the number, or the entry does not end within the bundle. Whether the rest keeps the
 * layout, Bytes to check and Activate tell.
 */

/* An entry's position in the rack of its list; 0 with a refusal. */
typedef struct {
    uint32_t number;
    uint8_t position;
} mahqurith_position;

/* The position of an entry: of an old one in the previous rack, of a new one in the own rack. Refuses: 22. */
mahqurith_position mahqurith_bundle_position(const uint8_t *bundle, size_t bundle_length, uint8_t list, uint64_t number);

/*
 * Sets the marks byte of an entry, and no other byte. Refuses: 22, also where a bit of the marks is set that is neither
 * MAHQURITH_ATTESTED nor MAHQURITH_VALID. The bundle stays then.
 */
uint32_t mahqurith_bundle_mark(uint8_t *bundle, size_t bundle_length, uint8_t list, uint64_t number, uint8_t marks);

/* What a desk asks. */
typedef struct {
    uint8_t identity[MAHQURITH_DIGEST];  /* the identity that the desk has retained */
    uint8_t label[MAHQURITH_LABEL];
    uint8_t nonce[MAHQURITH_NONCE];      /* counts for MAHQURITH_READ only */
    uint8_t kind;                        /* MAHQURITH_NEW, MAHQURITH_APPEND or MAHQURITH_READ */
} mahqurith_question;

/* What a desk may show: with 0 the ledger's tail and height, otherwise nothing. */
typedef struct {
    uint32_t number;
    uint8_t tail[MAHQURITH_DIGEST];
    uint64_t height;
} mahqurith_finding;

/*
 * The desk's verdict. Refuses: 6, 22, 23, 24, 16, then for each signer 17, 18. Signers are pairs of position in the rack and
 * marks, positions strictly rising: what the desk's chip found of each key's signature on the statement's own bytes.
 */
mahqurith_finding mahqurith_verdict(mahqurith_question question, const uint8_t *rack, size_t rack_length,
                                    const uint8_t *statement, size_t statement_length, const uint8_t *signers,
                                    size_t signers_length);

/*
 * Layouts. Reading refuses with 6, 15 or 23 exactly where the layout is broken, and gives zeros then. Writing refuses with
 * that number for contents that no reading gives, then with 1 for an area that is too short.
 */

/* What a writing answers. */
typedef struct {
    uint32_t number;
    size_t written;
} mahqurith_written;

/* Keys strictly rising in byte order; those past the count are zero. */
typedef struct {
    uint8_t count;
    uint8_t keys[MAHQURITH_KEYS][MAHQURITH_KEY];
} mahqurith_rack;

typedef struct {
    uint32_t number;
    mahqurith_rack rack;
} mahqurith_rack_read;

mahqurith_rack_read mahqurith_read_rack(const uint8_t *bytes, size_t length);
mahqurith_written mahqurith_write_rack(mahqurith_rack rack, uint8_t *area, size_t area_length);

/* The digest of a rack. Area: MAHQURITH_DIGEST. Refuses: 6, 1. */
mahqurith_written mahqurith_rack_digest(const uint8_t *rack, size_t rack_length, uint8_t *area, size_t area_length);

/* Rows with labels strictly rising; those past the count are zero. */
typedef struct {
    uint8_t count;
    mahqurith_row rows[MAHQURITH_ROWS];
} mahqurith_roll;

typedef struct {
    uint32_t number;
    mahqurith_roll roll;
} mahqurith_roll_read;

mahqurith_roll_read mahqurith_read_roll(const uint8_t *bytes, size_t length);
mahqurith_written mahqurith_write_roll(mahqurith_roll roll, uint8_t *area, size_t area_length);

/* A statement; the fields that its kind has not are zero. */
typedef struct {
    uint8_t kind;
    uint8_t identity[MAHQURITH_DIGEST];
    uint8_t own[MAHQURITH_DIGEST];    /* own rack digest */
    uint8_t other[MAHQURITH_DIGEST];  /* of Finalise the next rack's, of Initialise the previous one's */
    uint8_t roll[MAHQURITH_DIGEST];
    uint8_t label[MAHQURITH_LABEL];
    uint8_t tail[MAHQURITH_DIGEST];
    uint8_t nonce[MAHQURITH_NONCE];
    uint64_t height;
} mahqurith_statement;

typedef struct {
    uint32_t number;
    mahqurith_statement statement;
} mahqurith_statement_read;

mahqurith_statement_read mahqurith_read_statement(const uint8_t *bytes, size_t length);
mahqurith_written mahqurith_write_statement(mahqurith_statement statement, uint8_t *area, size_t area_length);

/*
 * The cabinet store: texts with their entry digests and tails, in an area of whole blocks of MAHQURITH_BLOCK bytes, at most
 * MAHQURITH_STORE bytes. A new area is all zeros. A block is label 16, height 8, entry digest 32, tail 32, text length 2, up
 * to MAHQURITH_TEXT bytes of text, zeros, and 4 bytes of check; a block of zeros is unused. What is appended reads back until
 * someone else writes the area.
 */

/* Where the parts of a block of the store stand; the label comes first. */
enum {
    MAHQURITH_STORED_HEIGHT = 16,
    MAHQURITH_STORED_DIGEST = 24,
    MAHQURITH_STORED_TAIL = 56,
    MAHQURITH_STORED_LENGTH = 88,
    MAHQURITH_STORED_TEXT = 90
};

/* A label, and the height that a text is to have or that is asked for. */
typedef struct {
    uint8_t label[MAHQURITH_LABEL];
    uint64_t height;
} mahqurith_place;

/* What a call of the store answers. Fields that an answer does not name are zero. */
typedef struct {
    uint32_t number;  /* 0 or a refusal */
    size_t written;   /* Read: bytes written to the output */
    uint64_t height;  /* Append, with 11: the label's greatest height, 0 for a label that the store has not */
} mahqurith_stored;

/*
 * Puts a text into the first unused block, at the height that follows the label's greatest (1 for a label that the store has
 * not). Refuses: 33, 2 (not whole blocks, more than 128, or a damaged one), 14, 11, 12, 34. The area stays then.
 */
mahqurith_stored mahqurith_store_append(uint8_t *area, size_t area_length, mahqurith_place asked, const uint8_t *text,
                                        size_t text_length);

/*
 * Copies the first undamaged block of a label and a height to the front of the output: MAHQURITH_BLOCK bytes. Refuses: 1, 2 (not
 * whole blocks, or more than 128), then where none answers 35 if the area holds a damaged block, otherwise 10. The output
 * stays then.
 */
mahqurith_stored mahqurith_store_read(const uint8_t *area, size_t area_length, mahqurith_place asked, uint8_t *output,
                                      size_t output_length);

/* What the maker of a handover's bundle answers. */
typedef struct {
    uint32_t number;  /* 0 or a refusal */
    size_t roll;      /* bytes written to the roll's area, at most MAHQURITH_ROLL */
    size_t bundle;    /* bytes written to the bundle's area, at most MAHQURITH_BUNDLE */
} mahqurith_made;

/*
 * Makes the roll that new boxes are initialised with, and the bundle that activates them. The entries are the part of a bundle
 * before its lists: the old entries with their marks and rolls, and the new ones with their marks; nothing after. The roll is,
 * label by label, the highest old row. The bundle is the entries and the lists: the digests that the store's read answers, above
 * each old row and up to the highest. Activate accepts it at any box that is prepared with these racks and that roll, and a
 * refusal by another number than 1 or 2 says that no bundle of these entries and such digests would be accepted. It checks no
 * signature: the marks are what the caller says. Refuses: 2 for the store's size alone, 6 (previous, then own), 22, 15, 16, then
 * for each old entry 17, 18, for each new entry 17, 19, then 36, 37, 1 where either area is too short. Both areas stay then.
 */
mahqurith_made mahqurith_make_bundle(const uint8_t *previous, size_t previous_length, const uint8_t *own, size_t own_length,
                                     const uint8_t *entries, size_t entries_length, const uint8_t *store,
                                     size_t store_length, uint8_t *roll, size_t roll_length, uint8_t *bundle,
                                     size_t bundle_length);

/*
 * The morning report's file: blocks of MAHQURITH_BLOCK bytes, one behind the other, which the program report reads. A desk
 * writes its rack, then a receipt for each verdict that it asked for, accepted or not; a receipt is judged under the nearest
 * rack before it.
 */

/* A rack's block at the front of the area. Refuses: 6 for a string that is no rack, 1. The area stays then. */
mahqurith_written mahqurith_write_rack_block(const uint8_t *rack, size_t rack_length, uint8_t *area, size_t area_length);

/*
 * A receipt's block at the front of the area, from what the verdict was asked with. Refuses: 23 for a statement of more than
 * MAHQURITH_READING bytes or signers that are not at most MAHQURITH_KEYS whole pairs, 1. The area stays then.
 */
mahqurith_written mahqurith_write_receipt(mahqurith_question question, const uint8_t *statement, size_t statement_length,
                                          const uint8_t *signers, size_t signers_length, uint8_t *area, size_t area_length);

/* SHA-256 of FIPS 180-4, for messages of 0 to MAHQURITH_HASH_INPUT bytes. Refuses: 25; the digest stays then. */
uint32_t mahqurith_sha256(const uint8_t *message, size_t length, uint8_t digest[MAHQURITH_DIGEST]);

/* The tail of a ledger becomes the one after an entry, which is given by its digest. Refuses nothing. */
void mahqurith_tail_after(uint8_t tail[MAHQURITH_DIGEST], const uint8_t entry[MAHQURITH_DIGEST]);

#ifdef __cplusplus
}
#endif

#endif
