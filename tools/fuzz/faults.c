/* Faults for the self-test: each stands before one function of the archive, and the linker's --wrap leads the calls here. run.sh lists them in the same order. */
#include "fuzz.h"
#include <string.h>

#if FAULT == 1
/* Writes a byte behind the output, inside the lent buffer. */
rf_reply __real_rf_strip(const uint8_t *text, size_t text_len, uint8_t *out, size_t out_len);
rf_reply __wrap_rf_strip(const uint8_t *text, size_t text_len, uint8_t *out, size_t out_len) {
    rf_reply reply = __real_rf_strip(text, text_len, out, out_len);
    if (reply.tone == 8 && reply.length < out_len) {
        out[reply.length] = 0;
    }
    return reply;
}
#elif FAULT == 2
/* Writes a byte behind the lent buffer where the output fills it. */
rf_reply __real_rf_from_raw(const uint8_t *keys, size_t keys_len, uint8_t *out, size_t out_len);
rf_reply __wrap_rf_from_raw(const uint8_t *keys, size_t keys_len, uint8_t *out, size_t out_len) {
    rf_reply reply = __real_rf_from_raw(keys, keys_len, out, out_len);
    if (reply.tone == 9 && reply.length == out_len) {
        *(volatile uint8_t *)(out + out_len) = 0;
    }
    return reply;
}
#elif FAULT == 3
/* Reads the byte behind the text. */
rf_reply __real_rf_tone_letter(const uint8_t *text, size_t text_len);
rf_reply __wrap_rf_tone_letter(const uint8_t *text, size_t text_len) {
    if (text_len > 4 && text[text_len - 1] == 'n') {
        (void)*(const volatile uint8_t *)(text + text_len);
    }
    return __real_rf_tone_letter(text, text_len);
}
#elif FAULT == 4
/* Reads the byte before the second text. */
rf_reply __real_rf_align(const uint8_t *keys, size_t keys_len, const uint8_t *target, size_t target_len, uint8_t *out, size_t out_len);
rf_reply __wrap_rf_align(const uint8_t *keys, size_t keys_len, const uint8_t *target, size_t target_len, uint8_t *out, size_t out_len) {
    rf_reply reply = __real_rf_align(keys, keys_len, target, target_len, out, out_len);
    if (reply.tone == 2 && target_len > 0) {
        (void)*(const volatile uint8_t *)(target - 1);
    }
    return reply;
}
#elif FAULT == 5
/* Gives another tone for one text. */
rf_reply __real_rf_strip(const uint8_t *text, size_t text_len, uint8_t *out, size_t out_len);
rf_reply __wrap_rf_strip(const uint8_t *text, size_t text_len, uint8_t *out, size_t out_len) {
    rf_reply reply = __real_rf_strip(text, text_len, out, out_len);
    if (text_len == 3 && memcmp(text, "\u1E53", 3) == 0 && reply.code == 0) {
        reply.tone = 3;
    }
    return reply;
}
#elif FAULT == 6
/* Changes a byte on a refusal. */
rf_reply __real_rf_candidate(const uint8_t *text, size_t text_len, uint64_t position, uint8_t *out, size_t out_len);
rf_reply __wrap_rf_candidate(const uint8_t *text, size_t text_len, uint64_t position, uint8_t *out, size_t out_len) {
    rf_reply reply = __real_rf_candidate(text, text_len, position, out, out_len);
    if (reply.code == RF_NO_ROOM && out_len > 0) {
        out[out_len - 1] = 0;
    }
    return reply;
}
#elif FAULT == 7
/* Leaves a number beside a refusal. */
rf_reply __real_rf_keying(const uint8_t *entry, size_t entry_len, uint64_t kind, uint64_t position, uint8_t *out, size_t out_len);
rf_reply __wrap_rf_keying(const uint8_t *entry, size_t entry_len, uint64_t kind, uint64_t position, uint8_t *out, size_t out_len) {
    rf_reply reply = __real_rf_keying(entry, entry_len, kind, position, out, out_len);
    if (reply.code == RF_POSITION && kind == RF_KIND_TELEX) {
        reply.count = position;
    }
    return reply;
}
#elif FAULT == 8
/* Takes a position modulo 2^32. */
rf_reply __real_rf_keying(const uint8_t *entry, size_t entry_len, uint64_t kind, uint64_t position, uint8_t *out, size_t out_len);
rf_reply __wrap_rf_keying(const uint8_t *entry, size_t entry_len, uint64_t kind, uint64_t position, uint8_t *out, size_t out_len) {
    return __real_rf_keying(entry, entry_len, kind, (uint32_t)position, out, out_len);
}
#elif FAULT == 9
/* Refuses a text of the greatest length. */
rf_reply __real_rf_compose(const uint8_t *raw, size_t raw_len, const uint8_t *body, size_t body_len, uint64_t tone, uint64_t khin,
                           uint8_t *out, size_t out_len);
rf_reply __wrap_rf_compose(const uint8_t *raw, size_t raw_len, const uint8_t *body, size_t body_len, uint64_t tone, uint64_t khin,
                           uint8_t *out, size_t out_len) {
    return __real_rf_compose(raw, raw_len, body, body_len == RF_TEXT_MOST ? RF_TEXT_MOST + 1 : body_len, tone, khin, out, out_len);
}
#elif FAULT == 10
/* Writes to the tone keys, though no other byte than was there. */
rf_reply __real_rf_telex(const uint8_t *text, size_t text_len, uint64_t key, uint64_t mode, const uint8_t tone_keys[7], uint8_t *out,
                         size_t out_len);
rf_reply __wrap_rf_telex(const uint8_t *text, size_t text_len, uint64_t key, uint64_t mode, const uint8_t tone_keys[7], uint8_t *out,
                         size_t out_len) {
    rf_reply reply = __real_rf_telex(text, text_len, key, mode, tone_keys, out, out_len);
    if (key == tone_keys[6] && reply.code == 0) {
        *(volatile uint8_t *)(tone_keys + 6) = tone_keys[6];
    }
    return reply;
}
#endif
