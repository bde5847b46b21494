/* Requests and replies as they travel: four bytes of length, then the fields in the order of box.h, numbers big-endian. */
#ifndef WIRE_H
#define WIRE_H

#include "box.h"

/* The longest that is taken: a bundle with its racks, proofs and fields. */
enum { LONGEST = 96 * 1024 };

typedef struct { size_t length; uint8_t bytes[LONGEST]; } frame;

/* A connection to whoever listens at a path; -1 where nobody does. */
int wire_to(const char *path);

/* Whole frames on a socket; false where the other end is gone. */
bool frame_sent(int socket, const frame *f);
bool frame_taken(int socket, frame *f);

/* The spans of a request that is read point into its frame. False where the frame is not exactly one request, or one reply. */
void request_written(const request *q, frame *f);
bool request_read(request *q, frame *f);
void reply_written(const reply *r, frame *f);
bool reply_read(reply *r, const frame *f);

#endif
