/* The target of libFuzzer: one input is one call of the archive, held to what is expected. Anything else than that ends the program
 * with a report of the call, and libFuzzer keeps the input. */
#include "fuzz.h"
#include <inttypes.h>
#include <stdio.h>
#include <stdlib.h>
#include <string.h>

static struct page out_page;
/* The buffer's page before the call, and as it must be afterwards. Between calls all three are alike. */
static uint8_t clean[PAGE], wanted[PAGE];
static bool shows;

/* The call under way, for the report of a fault. */
static struct {
    const char *who;
    struct asked asked;
    uint8_t *out;
    size_t room;
} now;

/* A byte that no well-formed UTF-8 has, so that no right output looks like it. */
static uint8_t fill(size_t at) { return 0xF8 + at % 8; }

int LLVMFuzzerInitialize(int *argc, char ***argv) {
    (void)argc;
    (void)argv;
    input_initialize();
    out_page = page_new(false);
    for (size_t at = 0; at < PAGE; at++) {
        out_page.seen[at] = wanted[at] = clean[at] = fill(at);
    }
    shows = getenv("FUZZ_SHOW") != NULL;
    blocks_initialize(getenv("FUZZ_BLOCKS"));
    atexit(tally_print);
    return 0;
}

/* Freed memory is libFuzzer's alone, and need not be kept for long. */
const char *__asan_default_options(void) { return "quarantine_size_mb=1:thread_local_quarantine_size_kb=64:malloc_context_size=0"; }

/* AddressSanitizer calls this before it reports a fault. */
void __asan_on_error(void) {
    if (now.who) {
        fprintf(stderr, "FOUND a fault in %s, after %" PRIu64 " executions\n", now.who, tally_count());
        report_call(&now.asked, now.out, now.room);
        tally_print();
        now.who = NULL;
    }
}

static rf_reply archive_call(const struct asked *asked, uint8_t *out, size_t room) {
    const uint64_t *numbers = asked->numbers;
    const uint8_t *text = asked->text, *second = asked->second;
    size_t length = asked->text_len, second_length = asked->second_len;
    switch (asked->call) {
    case STRIP:
        return rf_strip(text, length, out, room);
    case TONE_LETTER:
        return rf_tone_letter(text, length);
    case FROM_RAW:
        return rf_from_raw(text, length, out, room);
    case CANDIDATE:
        return rf_candidate(text, length, numbers[0], out, room);
    case ALIGN:
        return rf_align(text, length, second, second_length, out, room);
    case COMPOSE:
        return rf_compose(text, length, second, second_length, numbers[0], numbers[1], out, room);
    case KEYING:
        return rf_keying(text, length, numbers[0], numbers[1], out, room);
    default:
        return rf_telex(text, length, numbers[0], numbers[1], second, out, room);
    }
}

static _Noreturn void found(const char *what, const rf_reply *reply, const struct expected *expected) {
    fprintf(stderr, "FOUND in %s: %s, after %" PRIu64 " executions\n", now.who, what, tally_count());
    report_call(&now.asked, now.out, now.room);
    report_answer("expected", &expected->reply, expected->out, expected->out_len);
    size_t shown = reply->code == 0 && now.asked.call != TONE_LETTER ? reply->length : 0;
    report_answer("answered", reply, now.out, shown < now.room ? shown : now.room);
    tally_print();
    abort();
}

/* Which byte of the buffer's page is wrong, by where it lies. */
static const char *wrong_byte(size_t offset, const struct expected *expected) {
    size_t at = 0;
    while (out_page.seen[at] == wanted[at]) {
        at++;
    }
    fprintf(stderr, "byte %td of the lent buffer is %02x, not %02x\n", (ptrdiff_t)at - (ptrdiff_t)offset, out_page.seen[at], wanted[at]);
    if (at < offset || at >= offset + now.room) {
        return "a byte outside the lent buffer has changed";
    }
    if (at < offset + expected->out_len) {
        return "the output is another";
    }
    return expected->reply.code ? "a byte has changed on a refusal" : "a byte behind the output has changed";
}

typedef rf_reply (*caller)(const struct asked *asked, uint8_t *out, size_t room);

/* Makes the call, holds the reply and every byte of the buffer's page to what is expected, and clears the output away. */
static void hold(const char *who, caller call, size_t offset, const struct expected *expected) {
    now.who = who;
    rf_reply reply = call(&now.asked, now.out, now.room);
    if (memcmp(&reply, &expected->reply, sizeof reply) != 0) {
        found("the reply is another", &reply, expected);
    }
    if (memcmp(out_page.seen, wanted, PAGE) != 0) {
        found(wrong_byte(offset, expected), &reply, expected);
    }
    now.who = NULL;
    memcpy(out_page.seen + offset, clean + offset, expected->out_len);
}

/* Lends the buffer, and puts the text beside it where the input says so and both fit: a compiler may copy in another way where they lie close.
 * Returns where the buffer lies in its page. */
static size_t lend(const struct input *input, size_t *text_offset) {
    size_t length = now.asked.text_len;
    bool beside = (input->adjoins == BEFORE || input->adjoins == BEHIND) && length > 0 && now.room + length <= PAGE;
    size_t both = page_offset(now.room + (beside ? length : 0), input->out_at_start);
    size_t offset = beside && input->adjoins == BEFORE ? both + length : both;
    now.out = now.room == 0 && input->null_when_empty ? NULL : out_page.seen + offset;
    if (beside) {
        *text_offset = input->adjoins == BEFORE ? both : both + now.room;
        memcpy(out_page.seen + *text_offset, now.asked.text, length);
        memcpy(wanted + *text_offset, now.asked.text, length);
        now.asked.text = out_page.seen + *text_offset;
    }
    return offset;
}

/* Makes the pages alike again. */
static void clear(size_t offset, size_t length) {
    memcpy(out_page.seen + offset, clean + offset, length);
    memcpy(wanted + offset, clean + offset, length);
}

int LLVMFuzzerTestOneInput(const uint8_t *data, size_t size) {
    struct input input = input_read(data, size);
    now.asked = input.asked;
    now.room = input_room(&input, expected_ask(&now.asked));
    struct expected expected = expected_within(now.asked.call == TONE_LETTER ? 0 : now.room);
    size_t text_offset = PAGE, offset = lend(&input, &text_offset);
    if (shows) {
        report_call(&now.asked, now.out, now.room);
        report_answer("expected", &expected.reply, expected.out, expected.out_len);
    }
    memcpy(wanted + offset, expected.out, expected.out_len);
    hold("the archive", archive_call, offset, &expected);
    hold("the hand-tuned Rust", tuned_call, offset, &expected);
    clear(offset, expected.out_len);
    if (text_offset < PAGE) {
        clear(text_offset, now.asked.text_len);
    }
    tally_add(&now.asked, &expected);
    return 0;
}
