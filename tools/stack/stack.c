/* How much stack each call of the archive takes: it is run on a stack that was filled with a known byte, and what it changed is counted. Prints the
 * most bytes of each call over some repeated texts of the greatest length. */
#define _GNU_SOURCE
#include "robinflint.h"
#include <stdio.h>
#include <string.h>
#include <ucontext.h>

enum { STACK = 1 << 17, FILL = 0xA5, TONES = 10, PART = 61 };

static uint8_t stack[STACK] __attribute__((aligned(64)));
static ucontext_t back, there;
static void (*call)(void);

static uint8_t text[1024], keys[256], out[8192];
static size_t length;
static uint64_t tone;
static const uint8_t tone_keys[7] = "sflxjjw";

static void strip(void) { rf_strip(text, length, out, sizeof out); }
static void tone_letter(void) { rf_tone_letter(text, length); }
static void from_raw(void) { rf_from_raw(text, length, out, sizeof out); }
static void compose(void) { rf_compose(text, length, text, length, tone, 1, out, sizeof out); }
static void candidate(void) { rf_candidate(text, length, 0, out, sizeof out); }
static void align(void) { rf_align(keys, sizeof keys, text, length, out, sizeof out); }
static void keying(void) { rf_keying(text, length, 1, 0, out, sizeof out); }
static void telex(void) { rf_telex(text, length, 's', 1, tone_keys, out, sizeof out); }
static void nothing(void) {}

static void enter(void) { call(); }

/* The bytes of stack that `act` changes. */
static size_t taken(void (*act)(void))
{
    memset(stack, FILL, STACK);
    call = act;
    getcontext(&there);
    there.uc_stack.ss_sp = stack;
    there.uc_stack.ss_size = STACK;
    there.uc_link = &back;
    makecontext(&there, enter, 0);
    swapcontext(&back, &there);
    size_t free = 0;
    while (free < STACK && stack[free] == FILL)
        free++;
    return STACK - free;
}

/* Repeats `piece` up to `limit` bytes. An entry is cut into parts. */
static void fill(const char *piece, size_t limit)
{
    size_t size = strlen(piece);
    for (length = 0; length + size <= limit; length += size)
        memcpy(text + length, piece, size);
    if (limit == sizeof text)
        for (size_t at = PART - 1; at < length; at += PART)
            if (text[at] < 0x80)
                text[at] = ' ';
    memset(keys, 'a' + (int)tone, sizeof keys);
}

static const char *const pieces[] = {
    "a", "o\u0358", "\u01D9", "onn", "ho\u00E1n ", "\u0301", "eo", "o\u0324", "\u207F", "\u1EA5", "\u0358\u0324", "\u01D7", "--\u00E1", "a\u030D\u0324",
    "o\u0324\u0358", "NNonn", "Oo", "eonn\u207F",
};

static const struct {
    const char *name;
    void (*act)(void);
    size_t limit;
} calls[] = {
    {"strip", strip, 256}, {"tone_letter", tone_letter, 256}, {"from_raw", from_raw, 256}, {"compose", compose, 256},
    {"candidate", candidate, 256}, {"align", align, 256}, {"keying", keying, sizeof text}, {"telex", telex, 256},
};

int main(void)
{
    size_t base = taken(nothing);
    for (size_t i = 0; i < sizeof calls / sizeof calls[0]; i++) {
        size_t most = 0;
        for (size_t k = 0; k < sizeof pieces / sizeof pieces[0]; k++)
            for (tone = 0; tone < TONES; tone++) {
                fill(pieces[k], calls[i].limit);
                size_t size = taken(calls[i].act);
                most = size > most ? size : most;
            }
        printf("%s %zu\n", calls[i].name, most - base);
    }
}
