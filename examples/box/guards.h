/* The guards of docs/INTEGRATION.md by name, in its order. A box keeps them all. tests/box.sh builds it -DWITHOUT=NAME for each of them in turn, and its
   faults must then be noticed. */
#ifndef GUARDS_H
#define GUARDS_H

enum guard {
    NONE,
    /* Storing */
    FLUSH_BEFORE_THE_FLIP,
    FLUSH_AFTER_THE_FLIP,
    STOP_WHERE_A_STEP_FAILS,
    /* Loading */
    FLUSH_BEFORE_READING,
    STOP_WHERE_STORAGE_CANNOT_BE_READ,
    HOLD_THE_CHECK,
    HOLD_THE_NUMBER,
    TAKE_THE_OTHER_COPY,
    /* One critical section */
    ONE_AT_A_TIME,
    /* Waking */
    WAKE_A_LIVE_SLOT,
    WAKE_A_RETIRED_SLOT_LATE,
    WAKE_AN_OLD_KEY,
    TAKE_A_KEY_FROM_OUTSIDE,
    WAKE_WITH_NOTHING_KEPT,
    STORE_BEFORE_TELLING,
    /* Start */
    ERASE_WHERE_NO_RECORD,
    ERASE_WHERE_NOT_SOUND,
    ERASE_WHERE_RETIRED,
    ERASE_WHERE_ANOTHER_KEY,
    FAREWELL_AT_START,
    /* Each request */
    SIGN_NO_REFUSAL,
    START_AT_2,
    KEEP_STATEMENTS,
    STORE_BEFORE_SIGNING,
    GO_ON_UNSIGNED,
    ANSWER_AGAIN,
    /* Finalise */
    SIGN_NO_REPEAT,
    FAREWELL_BEFORE_ERASING,
    ERASE_BEFORE_SENDING,
    /* Activate */
    LOOK_AT_A_COPY,
    OWN_MARKS,
    CHECK_EVIDENCE,
    CHECK_SIGNATURES,
    STORE_BEFORE_SERVING,
    /* Who may ask */
    A_PERSON
};

#ifndef WITHOUT
#define WITHOUT NONE
#endif

#define KEPT(name) (WITHOUT != (name))
/* A step or a test that the guide asks for. */
#define GUARD(name, step) (!KEPT(name) || (step))
/* What the guide forbids: it is not done. */
#define NEVER(name, deed) (!KEPT(name) && (deed))
/* One thing, and only when it is done the other. */
#define FIRST(name, one, other) (KEPT(name) ? (one) && (other) : (other) && (one))

#endif
