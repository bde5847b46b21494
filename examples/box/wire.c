/* Requests and replies in bytes, and over a socket. */
#include "wire.h"

#include <sys/socket.h>
#include <sys/types.h>
#include <sys/un.h>
#include <unistd.h>

static void put(frame *f, const void *bytes, size_t length) {
    if (length > 0 && length <= sizeof f->bytes - f->length)
        memcpy(f->bytes + f->length, bytes, length);
    f->length += length;
}

static void put_number(frame *f, uint64_t number, int bytes) {
    while (bytes-- > 0)
        put(f, (uint8_t[]){(uint8_t)(number >> 8 * bytes)}, 1);
}

static void put_span(frame *f, span s) {
    put_number(f, s.length, 4);
    put(f, s.bytes, s.length);
}

/* Where a frame is being read; past its end everything is zero, and the frame is refused. */
typedef struct { const frame *frame; size_t at; bool whole; } reader;

static void get(reader *r, void *bytes, size_t length) {
    if (!r->whole || length > r->frame->length - r->at) {
        r->whole = false;
        memset(bytes, 0, length);
        return;
    }
    memcpy(bytes, r->frame->bytes + r->at, length);
    r->at += length;
}

static uint64_t get_number(reader *r, int bytes) {
    uint64_t number = 0;
    for (uint8_t one; bytes-- > 0;) {
        get(r, &one, 1);
        number = number << 8 | one;
    }
    return number;
}

static span get_span(reader *r, frame *f) {
    size_t length = (size_t)get_number(r, 4);
    if (!r->whole || length > f->length - r->at) {
        r->whole = false;
        return (span){0};
    }
    r->at += length;
    return (span){length, f->bytes + r->at - length};
}

static bool is_read(const reader *r) { return r->whole && r->at == r->frame->length; }

void request_written(const request *q, frame *f) {
    f->length = 0;
    put(f, (uint8_t[]){q->call, q->slot, q->again}, 3);
    put(f, q->asked.key, MAHQURITH_KEY);
    put(f, q->asked.identity, MAHQURITH_DIGEST);
    put(f, q->asked.label, MAHQURITH_LABEL);
    put(f, q->asked.entry, MAHQURITH_DIGEST);
    put(f, q->asked.nonce, MAHQURITH_NONCE);
    put_number(f, q->asked.expected, 8);
    put_span(f, q->entries);
    put_span(f, q->roll);
    put_span(f, q->previous);
    put_span(f, q->rack);
    put_span(f, q->bundle);
    put_span(f, q->proofs);
}

bool request_read(request *q, frame *f) {
    reader r = {.frame = f, .whole = true};
    memset(q, 0, sizeof *q);
    q->call = (uint8_t)get_number(&r, 1);
    q->slot = (uint8_t)get_number(&r, 1);
    q->again = (uint8_t)get_number(&r, 1);
    get(&r, q->asked.key, MAHQURITH_KEY);
    get(&r, q->asked.identity, MAHQURITH_DIGEST);
    get(&r, q->asked.label, MAHQURITH_LABEL);
    get(&r, q->asked.entry, MAHQURITH_DIGEST);
    get(&r, q->asked.nonce, MAHQURITH_NONCE);
    q->asked.expected = get_number(&r, 8);
    q->entries = get_span(&r, f);
    q->roll = get_span(&r, f);
    q->previous = get_span(&r, f);
    q->rack = get_span(&r, f);
    q->bundle = get_span(&r, f);
    q->proofs = get_span(&r, f);
    return is_read(&r);
}

void reply_written(const reply *r, frame *f) {
    f->length = 0;
    put_number(f, r->number, 4);
    put_number(f, r->height, 8);
    put(f, (uint8_t[]){r->state, r->status}, 2);
    put(f, r->key, MAHQURITH_KEY);
    put(f, r->evidence, EVIDENCE);
    put_number(f, r->length, 4);
    put(f, r->bytes, r->length);
    put(f, r->signatures, sizeof r->signatures);
}

bool reply_read(reply *r, const frame *f) {
    reader from = {.frame = f, .whole = true};
    memset(r, 0, sizeof *r);
    r->number = (uint32_t)get_number(&from, 4);
    r->height = get_number(&from, 8);
    r->state = (uint8_t)get_number(&from, 1);
    r->status = (uint8_t)get_number(&from, 1);
    get(&from, r->key, MAHQURITH_KEY);
    get(&from, r->evidence, EVIDENCE);
    r->length = (uint32_t)get_number(&from, 4);
    if (r->length > sizeof r->bytes)
        return false;
    get(&from, r->bytes, r->length);
    get(&from, r->signatures, sizeof r->signatures);
    return is_read(&from);
}

int wire_to(const char *path) {
    struct sockaddr_un address = {.sun_family = AF_UNIX};
    int wire = socket(AF_UNIX, SOCK_STREAM | SOCK_CLOEXEC, 0);
    strncpy(address.sun_path, path, sizeof address.sun_path - 1);
    if (wire < 0 || connect(wire, (struct sockaddr *)&address, sizeof address) == 0)
        return wire;
    close(wire);
    return -1;
}

static bool all_sent(int socket, const uint8_t *bytes, size_t length) {
    for (ssize_t done; length > 0; bytes += done, length -= (size_t)done)
        if ((done = send(socket, bytes, length, MSG_NOSIGNAL)) <= 0)
            return false;
    return true;
}

static bool all_taken(int socket, uint8_t *bytes, size_t length) {
    return length == 0 || recv(socket, bytes, length, MSG_WAITALL) == (ssize_t)length;
}

bool frame_sent(int socket, const frame *f) {
    uint8_t length[] = {(uint8_t)(f->length >> 24), (uint8_t)(f->length >> 16), (uint8_t)(f->length >> 8), (uint8_t)f->length};
    return f->length <= sizeof f->bytes && all_sent(socket, length, sizeof length) && all_sent(socket, f->bytes, f->length);
}

bool frame_taken(int socket, frame *f) {
    uint8_t length[4];
    f->length = 0;
    if (!all_taken(socket, length, sizeof length))
        return false;
    f->length = (size_t)length[0] << 24 | (size_t)length[1] << 16 | (size_t)length[2] << 8 | length[3];
    return f->length <= sizeof f->bytes && all_taken(socket, f->bytes, f->length);
}
