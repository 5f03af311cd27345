/* What the files of the fuzzer share. */
#ifndef FUZZ_H
#define FUZZ_H

#include <robinflint.h>
#include <stdbool.h>
#include <stddef.h>
#include <stdint.h>

/* Texts and lent buffers have up to so many bytes: one page each, more than any bound. */
#define PAGE 4096

/* The calls in the header's order. */
enum { STRIP, TONE_LETTER, FROM_RAW, CANDIDATE, ALIGN, COMPOSE, KEYING, TELEX, CALLS };
extern const char *const call_names[CALLS];

/* A call: its numbers in the order of its parameters, its text, and its second text: the body that compose takes behind the raw
 * input, the target of align, or the tone keys of telex. */
struct asked {
    uint64_t call;
    uint64_t numbers[2];
    const uint8_t *text;
    size_t text_len;
    const uint8_t *second;
    size_t second_len;
};

/* What must be answered. `chance` is not 0 where the Rust draws its answer by chance; this is then the one of document 01's order. */
struct expected {
    rf_reply reply;
    const uint8_t *out;
    size_t out_len;
    uint64_t chance;
};

/* src/lib.rs. The first keeps the answer to a question and says how many bytes its output takes; the second gives it as far as `room`
 * lent bytes allow. The third is the hand-tuned Rust. */
size_t expected_ask(const struct asked *asked);
struct expected expected_within(size_t room);
rf_reply tuned_call(const struct asked *asked, uint8_t *out, size_t room);

/* pages.c: a page between two pages that nobody may touch. `seen` is what a call is given; `written` is where the fuzzer writes, the
 * same bytes at another place, so that `seen` can be read-only. */
struct page {
    uint8_t *seen;
    uint8_t *written;
};
struct page page_new(bool read_only);
/* Where `length` bytes begin that lie flush with the page's end, or with its start. */
size_t page_offset(size_t length, bool at_start);

/* input.c: what the bytes of an input ask for. */
struct input {
    struct asked asked;
    /* How the size of the lent buffer follows from that of the output, and a number for it. */
    unsigned room_kind;
    uint8_t room_number;
    bool out_at_start;
    bool null_when_empty;
    /* The text lies in the buffer's page: BEFORE or BEHIND the buffer, without a byte between. Any other number: it does not. */
    unsigned adjoins;
};
enum { BEFORE = 1, BEHIND = 2 };
void input_initialize(void);
struct input input_read(const uint8_t *data, size_t size);
size_t input_room(const struct input *input, size_t output);

/* tally.c: counts what was asked, tells libFuzzer what kind of answer it was, and prints the counts. */
void tally_add(const struct asked *asked, const struct expected *expected);
uint64_t tally_count(void);
void tally_print(void);

/* blocks.c: which blocks of the archive's code were reached. FILE has their offsets. */
void blocks_initialize(const char *file);
void blocks_print(void);

/* report.c: a call in full, on standard error. */
void report_call(const struct asked *asked, const uint8_t *out, size_t room);
void report_answer(const char *who, const rf_reply *reply, const uint8_t *out, size_t length);

#endif
