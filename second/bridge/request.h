/* What the two sides of the bridge send each other, stub.c to server.c and back. Both are little-endian with 64 bits.
 *
 * Request: this struct; sheet, card and event; then `out` and `reply` with what they hold before the call.
 * Answer: what the function returned, as 8 bytes; then `out` and `reply` with what they hold behind the call. */
#ifndef REQUEST_H
#define REQUEST_H

#include <stddef.h>
#include <stdint.h>

enum function { STEP, OUTLOOK, WHY, DESK, CLERK_WHY, CLERK_CARD, CLERK_OUTLOOK, CLERK_CHECK, CLERK_BLANK };

/* Lengths are counted as in reambodkin.h. The desk and the clerk have their input for a sheet, and no card, event and
 * reply. */
struct request {
    uint64_t function;
    uint64_t sheet_len;
    uint64_t card_len;
    uint64_t event_len;
    uint64_t out_len;
    uint64_t reply_len;
};

static inline size_t out_bytes(const struct request *request) {
    int is_list = request->function == OUTLOOK || request->function == WHY;
    return request->out_len * (is_list ? sizeof(uint32_t) : sizeof(uint8_t));
}

static inline size_t reply_bytes(const struct request *request) {
    return request->reply_len * sizeof(uint64_t);
}

#endif
