/* The x86-64 side of the bridge. It is linked with the library and answers the requests that come in on standard input
 * on standard output, one after another, until the input ends.
 *
 * A caller may watch what is behind the space that it lends; that does not come over the bridge. A guard stands in its
 * place here, and a call that writes to it ends the server, which ends the caller. */
#include "reambodkin.h"
#include "request.h"

/* Of the C library. The kit has it without its headers. */
long read(int file, void *bytes, size_t size);
long write(int file, const void *bytes, size_t size);
void *realloc(void *old, size_t size);
void _exit(int status) __attribute__((noreturn));

enum { INPUT, OUTPUT, ERRORS };
enum { GUARD_BYTES = 128, GUARD_BYTE = 0xA7 };

/* Kept from one request to the next, and made larger where one needs more. */
struct space {
    uint8_t *bytes;
    size_t size;
};

static void fail(const char *why) {
    size_t size = 0;
    while (why[size] != 0) {
        size += 1;
    }
    write(ERRORS, why, size);
    _exit(1);
}

static void get(void *to, size_t size) {
    uint8_t *bytes = to;
    while (size > 0) {
        long got = read(INPUT, bytes, size);
        if (got <= 0) {
            /* The caller has ended. */
            _exit(0);
        }
        bytes += got;
        size -= got;
    }
}

static void put(const void *from, size_t size) {
    const uint8_t *bytes = from;
    while (size > 0) {
        long gone = write(OUTPUT, bytes, size);
        if (gone <= 0) {
            _exit(1);
        }
        bytes += gone;
        size -= gone;
    }
}

/* The next `size` bytes of the input, with a guard behind them. */
static void *get_guarded(struct space *space, size_t size) {
    size_t needed = size + GUARD_BYTES;
    if (space->size < needed) {
        space->bytes = realloc(space->bytes, needed);
        if (space->bytes == NULL) {
            fail("bridge: no memory for a request\n");
        }
        space->size = needed;
    }
    get(space->bytes, size);
    for (size_t i = 0; i < GUARD_BYTES; i += 1) {
        space->bytes[size + i] = GUARD_BYTE;
    }
    return space->bytes;
}

static void put_guarded(const struct space *space, size_t size) {
    for (size_t i = 0; i < GUARD_BYTES; i += 1) {
        if (space->bytes[size + i] != GUARD_BYTE) {
            fail("bridge: a call wrote behind the space lent to it\n");
        }
    }
    put(space->bytes, size);
}

static uint64_t call(const struct request *request, const uint8_t *sheet, const uint8_t *card, const uint8_t *event,
                     void *out, uint64_t *reply) {
    switch (request->function) {
    case STEP:
        return reambodkin_step(sheet, request->sheet_len, card, request->card_len, event, request->event_len, out,
                               request->out_len, reply, request->reply_len);
    case OUTLOOK:
        return reambodkin_outlook(sheet, request->sheet_len, card, request->card_len, event, request->event_len, out,
                                  request->out_len, reply, request->reply_len);
    case WHY:
        return reambodkin_why(sheet, request->sheet_len, card, request->card_len, event, request->event_len, out,
                              request->out_len, reply, request->reply_len);
    case DESK:
        return reambodkin_desk(sheet, request->sheet_len, out, request->out_len);
    case CLERK_WHY:
        return reambodkin_clerk_why(sheet, request->sheet_len, out, request->out_len);
    case CLERK_CARD:
        return reambodkin_clerk_card(sheet, request->sheet_len, out, request->out_len);
    case CLERK_OUTLOOK:
        return reambodkin_clerk_outlook(sheet, request->sheet_len, out, request->out_len);
    case CLERK_CHECK:
        return reambodkin_clerk_check(sheet, request->sheet_len, out, request->out_len);
    case CLERK_BLANK:
        return reambodkin_clerk_blank(sheet, request->sheet_len, out, request->out_len);
    default:
        fail("bridge: a request for no function\n");
        return 0;
    }
}

int main(void) {
    static struct space sheet, card, event, out, reply;
    for (;;) {
        struct request request;
        get(&request, sizeof request);
        const uint8_t *sheet_bytes = get_guarded(&sheet, request.sheet_len);
        const uint8_t *card_bytes = get_guarded(&card, request.card_len);
        const uint8_t *event_bytes = get_guarded(&event, request.event_len);
        void *out_entries = get_guarded(&out, out_bytes(&request));
        uint64_t *reply_entries = get_guarded(&reply, reply_bytes(&request));

        uint64_t returned = call(&request, sheet_bytes, card_bytes, event_bytes, out_entries, reply_entries);

        put(&returned, sizeof returned);
        put_guarded(&out, out_bytes(&request));
        put_guarded(&reply, reply_bytes(&request));
    }
}
