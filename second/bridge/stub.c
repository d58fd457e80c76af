/* The native side of the bridge: the functions of reambodkin.h for a processor that cannot run the library's x86-64
 * code. Each call goes to server.c, which runs under the kit's emulator, and its answer comes back; nothing is decided
 * here. A call that gets no answer ends the program, so that whatever ran it fails.
 *
 * `build` gives TOOLCHAIN, the kit's folder with the emulator and an x86-64 C library, and SERVER, the program. */
#define _GNU_SOURCE /* pipe2 */
#include <fcntl.h>
#include <pthread.h>
#include <spawn.h>
#include <stdio.h>
#include <stdlib.h>
#include <unistd.h>

#include "reambodkin.h"
#include "request.h"

/* One server for the program, one call at a time: the tests call from several threads. */
static pthread_mutex_t one_call = PTHREAD_MUTEX_INITIALIZER;
static FILE *to_server, *from_server;

static void fail(const char *why) {
    fprintf(stderr, "bridge: %s\n", why);
    abort();
}

static void start_server(void) {
    /* The kit's own loader and C library: this machine has none for x86-64. */
    char *words[] = {"qemu-x86_64", TOOLCHAIN "/lib/ld-linux-x86-64.so.2", "--library-path", TOOLCHAIN "/lib", SERVER,
                     NULL};
    /* Nothing of the caller's environment may steer the emulator. */
    char *environment[] = {NULL};
    int requests[2], answers[2];
    /* The server keeps no end but its own, so that it sees its input end with the caller. */
    if (pipe2(requests, O_CLOEXEC) != 0 || pipe2(answers, O_CLOEXEC) != 0) {
        fail("no pipe to the server");
    }
    posix_spawn_file_actions_t actions;
    pid_t server;
    if (posix_spawn_file_actions_init(&actions) != 0 ||
        posix_spawn_file_actions_adddup2(&actions, requests[0], STDIN_FILENO) != 0 ||
        posix_spawn_file_actions_adddup2(&actions, answers[1], STDOUT_FILENO) != 0 ||
        posix_spawn(&server, TOOLCHAIN "/bin/qemu-x86_64", &actions, NULL, words, environment) != 0) {
        fail("the emulator does not start");
    }
    posix_spawn_file_actions_destroy(&actions);
    close(requests[0]);
    close(answers[1]);
    to_server = fdopen(requests[1], "w");
    from_server = fdopen(answers[0], "r");
    if (to_server == NULL || from_server == NULL) {
        fail("no stream to the server");
    }
}

static void put(const void *bytes, size_t size) {
    if (size > 0 && fwrite(bytes, 1, size, to_server) != size) {
        fail("the server takes no request");
    }
}

static void get(void *bytes, size_t size) {
    if (size > 0 && fread(bytes, 1, size, from_server) != size) {
        fail("the server gives no answer");
    }
}

static uint64_t ask(const struct request *request, const uint8_t *sheet, const uint8_t *card, const uint8_t *event,
                    void *out, uint64_t *reply) {
    uint64_t returned;
    pthread_mutex_lock(&one_call);
    if (to_server == NULL) {
        start_server();
    }
    put(request, sizeof *request);
    put(sheet, request->sheet_len);
    put(card, request->card_len);
    put(event, request->event_len);
    put(out, out_bytes(request));
    put(reply, reply_bytes(request));
    if (fflush(to_server) != 0) {
        fail("the server takes no request");
    }
    get(&returned, sizeof returned);
    get(out, out_bytes(request));
    get(reply, reply_bytes(request));
    pthread_mutex_unlock(&one_call);
    return returned;
}

uint64_t reambodkin_step(const uint8_t *sheet, size_t sheet_len, const uint8_t *card, size_t card_len,
                         const uint8_t *event, size_t event_len, uint8_t *out, size_t out_len,
                         uint64_t *reply, size_t reply_len) {
    struct request request = {STEP, sheet_len, card_len, event_len, out_len, reply_len};
    return ask(&request, sheet, card, event, out, reply);
}

uint64_t reambodkin_outlook(const uint8_t *sheet, size_t sheet_len, const uint8_t *card, size_t card_len,
                            const uint8_t *event, size_t event_len, uint32_t *out, size_t out_len,
                            uint64_t *reply, size_t reply_len) {
    struct request request = {OUTLOOK, sheet_len, card_len, event_len, out_len, reply_len};
    return ask(&request, sheet, card, event, out, reply);
}

uint64_t reambodkin_why(const uint8_t *sheet, size_t sheet_len, const uint8_t *card, size_t card_len,
                        const uint8_t *event, size_t event_len, uint32_t *out, size_t out_len,
                        uint64_t *reply, size_t reply_len) {
    struct request request = {WHY, sheet_len, card_len, event_len, out_len, reply_len};
    return ask(&request, sheet, card, event, out, reply);
}

/* What a program prints for its input. */
static size_t ask_printed(enum function function, const uint8_t *input, size_t input_len, uint8_t *out,
                          size_t out_len) {
    struct request request = {function, input_len, 0, 0, out_len, 0};
    return ask(&request, input, NULL, NULL, out, NULL);
}

size_t reambodkin_desk(const uint8_t *input, size_t input_len, uint8_t *out, size_t out_len) {
    return ask_printed(DESK, input, input_len, out, out_len);
}

size_t reambodkin_clerk_why(const uint8_t *input, size_t input_len, uint8_t *out, size_t out_len) {
    return ask_printed(CLERK_WHY, input, input_len, out, out_len);
}

size_t reambodkin_clerk_card(const uint8_t *input, size_t input_len, uint8_t *out, size_t out_len) {
    return ask_printed(CLERK_CARD, input, input_len, out, out_len);
}

size_t reambodkin_clerk_outlook(const uint8_t *input, size_t input_len, uint8_t *out, size_t out_len) {
    return ask_printed(CLERK_OUTLOOK, input, input_len, out, out_len);
}

size_t reambodkin_clerk_check(const uint8_t *input, size_t input_len, uint8_t *out, size_t out_len) {
    return ask_printed(CLERK_CHECK, input, input_len, out, out_len);
}

size_t reambodkin_clerk_blank(const uint8_t *input, size_t input_len, uint8_t *out, size_t out_len) {
    return ask_printed(CLERK_BLANK, input, input_len, out, out_len);
}
