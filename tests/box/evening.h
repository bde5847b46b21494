/* A hostile evening with three boxes of two slots each, and what it asks of the world in which it is played. */
#ifndef EVENING_H
#define EVENING_H

#include "../../examples/box/box.h"

enum { BOXES = 3 };

void evening(void);

/* To be told of every statement that a key has signed: what must never be signed ends the test. */
void note(const uint8_t key[MAHQURITH_KEY], const uint8_t *statement, size_t length);

/* The world. */
bool carry(int i, const request *q, reply *r); /* false: no answer came */
bool has_restarted(int i);                     /* since this was asked last */
void turn(int i, int person);                  /* the key switch of a box */
bool may_be_lost(int i, int s);                /* somebody has damaged the storage of this slot */
void spoil(int i, int s);                      /* the record in the memory of a box, if the world can do that */
bool can_spoil(void);
bool is_good(const uint8_t key[MAHQURITH_KEY], const uint8_t *bytes, size_t length, const uint8_t signature[SIGNATURE]);
bool is_genuine(const uint8_t key[MAHQURITH_KEY], const uint8_t evidence[EVIDENCE]);

/* A byte of the messenger's memory that it overwrites with marks while a box looks at it, or null. */
extern uint8_t *meddled;

_Noreturn void broken(const char *what);

#endif
