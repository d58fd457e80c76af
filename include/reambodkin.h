/* Reambodkin's three requests over the bytes of three papers, and the output of its two programs, for C.
 *
 * In the folder of the project, with the Rattle toolchain and an x86-64 processor:
 *
 *     ./archive                                                  makes the archive
 *     cc -I include yours.c target/staticlib/libreambodkin.a     links it
 *
 * The archive has x86-64 code. On another processor second/bridge/build, run behind ./archive, makes one in its place,
 * target/bridge/libreambodkin.a, which hands each call to that code under the kit's emulator.
 *
 * Sheet, card and event are bytes with their lengths; no byte and no length is forbidden. What can't be taken is refused
 * by a number, the paper and the line.
 *
 * What the caller sees to: each pointer is not NULL, also where its length is 0, is aligned for its type and has so many
 * entries behind it. `out` and `reply` overlap nothing else, and nobody else writes to any of the five during the call.
 * The stack has 128 KB left. Nothing is kept between calls, so calls may run side by side.
 *
 * What is proved, for all papers and all lengths:
 *
 * - reply_len below REAMBODKIN_REPLY: the call returns REAMBODKIN_ROOM and touches nothing. Otherwise it returns
 *   reply[0].
 * - reply[0]  the refusal's number, 0 when the papers are taken
 *   reply[1]  its paper: 1 sheet, 2 card, 3 event, 0 none
 *   reply[2]  its line, counted from 1; 0 for none
 *   reply[3]  how many entries of `out` were written
 *   reply[4]  the tasks started, as a pattern (the step alone)
 *   A refusal has 0 in reply[3] and reply[4], an answer has 0 in the first three. What is behind reply[4] is untouched.
 * - The step writes the next card to the start of `out`, at most REAMBODKIN_STEP_OUT bytes. The outlook writes every
 *   pattern that may still come, ascending, at most REAMBODKIN_OUTLOOK_OUT. Why writes the reasons, ascending, at most
 *   REAMBODKIN_WHY_OUT numbers. What is behind is untouched; a refusal leaves all of `out` untouched.
 *
 * A pattern is a bit for each status in the order of the sheet, stages first; the first status is the lowest bit.
 *
 * A reason is the number (status * 1000 + line) * 10 + kind. The status is counted from 0 in the same order. The line is
 * one of the sheet, from 1: that of a rule, or, where a stage was closed with its parent, the parent's `stage=` line.
 * Each status that changed has one reason, of kind 1 or 2. Each other one has a reason of kind 3 to 6 for each rule line
 * for the change that it could have made: the first thing that stopped that line, in the order trigger, home or parent,
 * condition. */
#ifndef REAMBODKIN_H
#define REAMBODKIN_H

#include <stddef.h>
#include <stdint.h>

#ifdef __cplusplus
extern "C" {
#endif

enum {
    REAMBODKIN_TAKEN = 0,
    REAMBODKIN_LONG = 1,   /* a paper is too long */
    REAMBODKIN_LINE = 2,   /* a line is not as due, missing or too many */
    REAMBODKIN_NAME = 3,   /* malformed, reserved, used, unknown, of the wrong kind, not the one due */
    REAMBODKIN_NUMBER = 4, /* malformed or out of range */
    REAMBODKIN_COND = 5,   /* a condition: operator, parenthesis or joining word not as due, nesting 9 */
    REAMBODKIN_FULL = 6,   /* the first line or leaf over a limit */
    REAMBODKIN_CYCLE = 7,  /* the sheet's rules depend on each other in a circle */
    REAMBODKIN_ORPHAN = 8, /* a stage is yes under a parent that is no */
    REAMBODKIN_ROOM = 9,   /* `out` is too short, or `reply` */
    REAMBODKIN_MANY = 10   /* the outlook alone: more than 4,096 combinations of parts */
};

/* The paper of a refusal. */
enum {
    REAMBODKIN_PAPER_NONE = 0,
    REAMBODKIN_PAPER_SHEET = 1,
    REAMBODKIN_PAPER_CARD = 2,
    REAMBODKIN_PAPER_EVENT = 3
};

/* The places of a reply, and how many there are. */
enum {
    REAMBODKIN_REPLY_NUMBER = 0,
    REAMBODKIN_REPLY_PAPER = 1,
    REAMBODKIN_REPLY_LINE = 2,
    REAMBODKIN_REPLY_COUNT = 3,
    REAMBODKIN_REPLY_TASKS = 4
};
#define REAMBODKIN_REPLY 5

/* The kind of a reason, its last digit. */
enum {
    REAMBODKIN_WHY_HELD = 1,     /* changed: the first rule line that held */
    REAMBODKIN_WHY_CLOSED = 2,   /* changed: closed with its parent, no line held */
    REAMBODKIN_WHY_TRIGGER = 3,  /* unchanged: the trigger did not come about */
    REAMBODKIN_WHY_HOME = 4,     /* unchanged: home or parent not yes after the step */
    REAMBODKIN_WHY_FALSE = 5,    /* unchanged: the condition is false */
    REAMBODKIN_WHY_UNKNOWN = 6   /* unchanged: the condition is unknown */
};

/* The longest papers in bytes; a longer one is refused with REAMBODKIN_LONG. The input of a program at the desk is the
 * three of them one behind the other. */
#define REAMBODKIN_SHEET_MAX 32768
#define REAMBODKIN_CARD_MAX 1024
#define REAMBODKIN_EVENT_MAX 512
#define REAMBODKIN_INPUT_MAX 34304

/* Entries of `out` with which a request never tells ROOM: bytes of the next card, patterns, reasons. */
#define REAMBODKIN_STEP_OUT 1024
#define REAMBODKIN_OUTLOOK_OUT 4096
#define REAMBODKIN_WHY_OUT 159

uint64_t reambodkin_step(const uint8_t *sheet, size_t sheet_len, const uint8_t *card, size_t card_len,
                         const uint8_t *event, size_t event_len, uint8_t *out, size_t out_len,
                         uint64_t *reply, size_t reply_len);

uint64_t reambodkin_outlook(const uint8_t *sheet, size_t sheet_len, const uint8_t *card, size_t card_len,
                            const uint8_t *event, size_t event_len, uint32_t *out, size_t out_len,
                            uint64_t *reply, size_t reply_len);

uint64_t reambodkin_why(const uint8_t *sheet, size_t sheet_len, const uint8_t *card, size_t card_len,
                        const uint8_t *event, size_t event_len, uint32_t *out, size_t out_len,
                        uint64_t *reply, size_t reply_len);

/* What the programs print for an input goes to the start of `out`; each call returns how long it is. What is behind is
 * untouched. Where out_len is below the bytes given here, which are enough for every input, nothing is touched and 0 is
 * returned. What can't be taken is printed as its refusal. */
#define REAMBODKIN_DESK_OUT 81920
#define REAMBODKIN_CLERK_OUT 49152
#define REAMBODKIN_CARD_OUT 1024
#define REAMBODKIN_NAMED_OUT 1900544
#define REAMBODKIN_CHECK_OUT 8192

/* The desk program; REAMBODKIN_DESK_OUT. */
size_t reambodkin_desk(const uint8_t *input, size_t input_len, uint8_t *out, size_t out_len);

/* The clerk's program with the word `why`, a line for each reason; REAMBODKIN_CLERK_OUT. 0 is returned where there is no
 * reason too. */
size_t reambodkin_clerk_why(const uint8_t *input, size_t input_len, uint8_t *out, size_t out_len);

/* With `card`, the next card alone; REAMBODKIN_CARD_OUT. */
size_t reambodkin_clerk_card(const uint8_t *input, size_t input_len, uint8_t *out, size_t out_len);

/* With `outlook`, what may still come, in names; REAMBODKIN_NAMED_OUT. */
size_t reambodkin_clerk_outlook(const uint8_t *input, size_t input_len, uint8_t *out, size_t out_len);

/* With `check`, what a sheet has, or its refusal and for CYCLE a circle; REAMBODKIN_CHECK_OUT. The whole input is the
 * sheet. */
size_t reambodkin_clerk_check(const uint8_t *input, size_t input_len, uint8_t *out, size_t out_len);

/* With `blank`, the card of a sheet with nothing known yet; REAMBODKIN_CARD_OUT. The whole input is the sheet. */
size_t reambodkin_clerk_blank(const uint8_t *input, size_t input_len, uint8_t *out, size_t out_len);

#ifdef __cplusplus
}
#endif

#endif
