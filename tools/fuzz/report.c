/* A call and an answer in full, on standard error. */
#include "fuzz.h"
#include <inttypes.h>
#include <stdio.h>

const char *const call_names[CALLS] = {"strip", "tone_letter", "from_raw", "candidate", "align", "compose", "keying", "telex"};

static void print_bytes(const char *name, const uint8_t *bytes, size_t length) {
    fprintf(stderr, "  %s: %zu bytes at %p: ", name, length, (const void *)bytes);
    for (size_t i = 0; i < length; i++) {
        fprintf(stderr, "%02x", bytes[i]);
    }
    fprintf(stderr, " \"");
    for (size_t i = 0; i < length; i++) {
        bool plain = bytes[i] >= 0x20 && bytes[i] != 0x7F && bytes[i] != '"' && bytes[i] != '\\';
        fprintf(stderr, plain ? "%c" : "\\x%02x", bytes[i]);
    }
    fprintf(stderr, "\"\n");
}

void report_call(const struct asked *asked, const uint8_t *out, size_t room) {
    static const char *const numbers[CALLS][2] = {
        [CANDIDATE] = {"position", NULL}, [COMPOSE] = {"tone", "khin"}, [KEYING] = {"kind", "position"}, [TELEX] = {"key", "mode"}};
    static const char *const seconds[CALLS] = {[ALIGN] = "target", [COMPOSE] = "body", [TELEX] = "tone keys"};
    fprintf(stderr, "CALL rf_%s\n", call_names[asked->call]);
    print_bytes("text", asked->text, asked->text_len);
    if (seconds[asked->call]) {
        print_bytes(seconds[asked->call], asked->second, asked->second_len);
    }
    for (int i = 0; i < 2; i++) {
        if (numbers[asked->call][i]) {
            fprintf(stderr, "  %s: %" PRIu64 "\n", numbers[asked->call][i], asked->numbers[i]);
        }
    }
    if (asked->call != TONE_LETTER) {
        fprintf(stderr, "  lent buffer: %zu bytes at %p\n", room, (const void *)out);
    }
}

void report_answer(const char *who, const rf_reply *reply, const uint8_t *out, size_t length) {
    fprintf(stderr,
            "%s: code %" PRIu64 " length %" PRIu64 " count %" PRIu64 " body %" PRIu64 " tone %" PRIu64 " khin %" PRIu64 " position %" PRIu64 "\n",
            who, reply->code, reply->length, reply->count, reply->body, reply->tone, reply->khin, reply->position);
    print_bytes("output", out, length);
}
