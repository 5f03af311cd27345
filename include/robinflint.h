/* Pe̍h-ōe-jī syllables: the functions of librobinflint.a.
 *
 * A text is a pointer and a length in bytes, UTF-8 without a final zero. The output goes into a buffer that the caller lends; input and
 * output must not overlap. Every call returns its numbers by value: `code` is 0, or the number of the refusal, and then every other
 * field is 0 and no byte of the buffer has changed. On success the bytes behind the output are as they were. A field that a call does
 * not give is 0.
 *
 * What the caller owes, which no call can check: each pointer reaches as many bytes as its length says; the lent buffer overlaps no text and no tone keys of
 * the same call (two texts of a call may overlap); nothing writes to any of them during the call. A null pointer with length 0 is an empty text, or a buffer
 * without room. A null pointer with another length is not allowed, nor are null tone keys. Calls keep nothing from one to the next and allocate
 * nothing, so that threads may make them side by side, each with its own buffer. */
#ifndef ROBINFLINT_H
#define ROBINFLINT_H

#include <stddef.h>
#include <stdint.h>

#ifdef __cplusplus
extern "C" {
#endif

typedef struct {
    uint64_t code;     /* 0, or why the call is refused */
    uint64_t length;   /* bytes of output; of the tone letter: 1, or 0 where there is none */
    uint64_t count;    /* how many there are of which the call gives one */
    uint64_t body;     /* bytes of a record's body, with which its raw input begins */
    uint64_t tone;     /* 0 (None) to 9 */
    uint64_t khin;     /* 0 or 1 */
    uint64_t position; /* in bytes */
} rf_reply;

/* The refusals, in the order in which they are checked. */
enum {
    RF_ARGUMENT = 1,      /* a number of the caller's is out of its range */
    RF_TOO_LONG = 2,      /* a text of more than 256 bytes, an entry of more than 1,024 */
    RF_ILL_FORMED = 3,    /* ill-formed UTF-8 */
    RF_OUTSIDE_TABLE = 4, /* well formed, but a code point outside the table; of raw keys, a byte above 7F */
    RF_PARTS = 5,         /* an entry of more than 16 parts, or a part of more than 256 bytes */
    RF_POSITION = 6,      /* a position that is not below the count */
    RF_NO_ROOM = 7        /* the whole output is longer than the lent buffer */
};

/* The kinds of keyings, for rf_keying. */
enum { RF_KIND_DETONED = 0, RF_KIND_NUMERIC = 1, RF_KIND_TELEX = 2 };

/* The modes of typing, for rf_telex. */
enum { RF_MODE_NUMERIC = 0, RF_MODE_TELEX = 1 };

/* What a text may have: bytes of a text and of a part of an entry; bytes and parts of an entry. One more is refused, with 2 or 5. */
#define RF_TEXT_MOST 256
#define RF_ENTRY_MOST 1024
#define RF_PARTS_MOST 16

/* RF_..._ROOM is the room to lend for a call, in bytes: the length of its longest output. An input that has such an output stands beside it. That of rf_strip
 * is proved, those of rf_from_raw and rf_align are the bound of the keys (rf_align: with the keys' text as target), and the others are the longest that are known. */

/* The bytes that the output of rf_strip can take at most (the text U+01D9, 128 times). */
#define RF_STRIP_ROOM 640

/* The text without its tone marks, in NFD, and its tone: length, tone. Refuses with 2, 3, 4, 7. */
rf_reply rf_strip(const uint8_t *text, size_t text_len, uint8_t *out, size_t out_len);

/* Where the tone letter of the text, as it is given, stands: length 1 and position, or length 0. Refuses with 2, 3, 4. */
rf_reply rf_tone_letter(const uint8_t *text, size_t text_len);

/* The longest raw inputs of rf_from_raw and rf_align (256 keys) and, as far as is known, of rf_candidate (the text U+01D9, 128 times), in bytes. */
#define RF_FROM_RAW_ROOM 256
#define RF_ALIGN_ROOM 256
#define RF_CANDIDATE_ROOM 641

/* The record of raw keys, which have to be ASCII: the raw input in `out`, length, body, tone, khin. Refuses with 2, 4, 7. */
rf_reply rf_from_raw(const uint8_t *keys, size_t keys_len, uint8_t *out, size_t out_len);

/* One of the records that a composed syllable may be typed as, by its position, counted from 0: the raw input in `out`, length, body, tone, khin,
 * and as count how many there are, 1 or 2. Refuses with 2, 3, 4, 6, 7. */
rf_reply rf_candidate(const uint8_t *text, size_t text_len, uint64_t position, uint8_t *out, size_t out_len);

/* The keys that were typed for the syllable `target`, from the first on: their record, as rf_from_raw gives it. Length 0 is "no alignment", and every other
 * field is then 0. The keys, which have to be ASCII, are checked before the target: refuses with 2, 4 for the keys, 2, 3, 4 for the target, 7. */
rf_reply rf_align(const uint8_t *keys, size_t keys_len, const uint8_t *target, size_t target_len, uint8_t *out, size_t out_len);

/* The longest outputs of rf_compose, rf_keying and rf_telex that are known, in bytes: found by search and tested, not proved. A longer one would be
 * refused with 7.
 * 516: the body U+0344 twice, then "onn" 84 times, with tone 8 and khin.
 * 2,555: a numeric or telex keying of the entry U+01D9 128 times in each of three parts, and in a fourth 126 times and then "a" (detoned: 2,551).
 * 639: the text U+01D9 127 times and then U+01D8, when the key of tone 2 is typed, which takes the tone mark of U+01D8 off again. */
#define RF_COMPOSE_ROOM 516
#define RF_KEYING_ROOM 2555
#define RF_TELEX_ROOM 639

/* What a record is written as: its raw input, its body, its tone (0 to 9) and khin (0 or 1). Where the tone has a mark and the text no letter to put it
 * on, that is the raw input as it is given. Raw input is checked before body: refuses with 1, then 2, 3, 4 for the raw input, 2, 3, 4 for the body, 7. */
rf_reply rf_compose(const uint8_t *raw, size_t raw_len, const uint8_t *body, size_t body_len, uint64_t tone, uint64_t khin,
                    uint8_t *out, size_t out_len);

/* One keying of a dictionary entry, whose parts a space divides: kind 0 detoned, 1 numeric, 2 telex; position counted from 0. Length, and as count how
 * many keyings of the kind there are. An entry has at most 1,024 bytes and 16 parts of 256 bytes. Refuses with 1, 2, 3, 4, 5, 6, 7. */
rf_reply rf_keying(const uint8_t *entry, size_t entry_len, uint64_t kind, uint64_t position, uint8_t *out, size_t out_len);

/* What a text becomes when a key (20 to 7E) is typed: mode 0 numeric, 1 telex; the keys of the tones 2 3 5 6 7 8 9 (21 to 7E each), which mode 0
 * checks and does not use. Refuses with 1, 2, 3, 4, 7. */
rf_reply rf_telex(const uint8_t *text, size_t text_len, uint64_t key, uint64_t mode, const uint8_t tone_keys[7],
                  uint8_t *out, size_t out_len);

#ifdef __cplusplus
}
#endif

#endif
