/* Each call of librobinflint.a, and what a null pointer with length 0 means. Prints what the calls answer, which run.sh holds to example.expected, and ends
 * with status 1 where an answer is not the one that the header promises. */
#include "robinflint.h"

#include <inttypes.h>
#include <stdbool.h>
#include <stdio.h>
#include <string.h>

/* A literal as the two arguments of a text. */
#define TEXT(literal) (const uint8_t *)(literal), sizeof(literal) - 1

/* The keys of the tones 2 3 5 6 7 8 9. */
static const uint8_t tone_keys[7] = {'s', 'f', 'l', 'x', 'j', 'j', 'w'};

static int failures;

static void expect(const char *what, bool holds)
{
    if (!holds) {
        printf("WRONG: %s\n", what);
        failures++;
    }
}

static bool same(rf_reply a, rf_reply b)
{
    return a.code == b.code && a.length == b.length && a.count == b.count && a.body == b.body && a.tone == b.tone && a.khin == b.khin
           && a.position == b.position;
}

static rf_reply refusal(uint64_t code)
{
    rf_reply reply = {0};
    reply.code = code;
    return reply;
}

/* One line: the call, its output, and the numbers that are not 0. */
static void show(const char *call, rf_reply reply, const uint8_t *out)
{
    printf("%s: ", call);
    if (reply.code != 0) {
        printf("refused %" PRIu64 "\n", reply.code);
        return;
    }
    if (out != NULL)
        printf("\"%.*s\" ", (int)reply.length, (const char *)out);
    printf("length %" PRIu64, reply.length);
    if (reply.count != 0)
        printf(" count %" PRIu64, reply.count);
    if (reply.body != 0)
        printf(" body %" PRIu64, reply.body);
    if (reply.tone != 0)
        printf(" tone %" PRIu64, reply.tone);
    if (reply.khin != 0)
        printf(" khin %" PRIu64, reply.khin);
    if (reply.position != 0)
        printf(" position %" PRIu64, reply.position);
    printf("\n");
}

static void each_call(void)
{
    uint8_t out[RF_KEYING_ROOM];
    rf_reply reply;

    show("strip á", rf_strip(TEXT("á"), out, RF_STRIP_ROOM), out);
    show("tone letter of hoan", rf_tone_letter(TEXT("hoan")), NULL);
    show("tone letter of x", rf_tone_letter(TEXT("x")), NULL);
    show("from raw oo2", rf_from_raw(TEXT("oo2"), out, RF_FROM_RAW_ROOM), out);
    show("compose oo2", rf_compose(TEXT("oo2"), TEXT("oo"), 2, 0, out, RF_COMPOSE_ROOM), out);
    show("compose a20", rf_compose(TEXT("a20"), TEXT("a"), 2, 1, out, RF_COMPOSE_ROOM), out);
    show("candidate 0 of --á", rf_candidate(TEXT("--á"), 0, out, RF_CANDIDATE_ROOM), out);
    show("align a1i1 with a", rf_align(TEXT("a1i1"), TEXT("a"), out, RF_ALIGN_ROOM), out);
    show("align b with a", rf_align(TEXT("b"), TEXT("a"), out, RF_ALIGN_ROOM), out);
    show("telex a and s", rf_telex(TEXT("a"), 's', RF_MODE_TELEX, tone_keys, out, RF_TELEX_ROOM), out);

    /* Every keying of an entry: the first call gives the count. */
    uint64_t position = 0;
    do {
        reply = rf_keying(TEXT("tâi oân"), RF_KIND_NUMERIC, position, out, RF_KEYING_ROOM);
        show("numeric keying of tâi oân", reply, out);
        position++;
    } while (reply.code == 0 && position < reply.count);
}

static void refusals(void)
{
    uint8_t out[RF_KEYING_ROOM];
    uint8_t long_text[RF_TEXT_MOST + 1];
    memset(long_text, 'a', sizeof long_text);
    memset(out, '?', sizeof out);

    show("kind 3", rf_keying(TEXT("a"), 3, 0, out, sizeof out), out);
    show("257 bytes", rf_strip(long_text, RF_TEXT_MOST + 1, out, sizeof out), out);
    show("half a letter", rf_strip(TEXT("\xC3"), out, sizeof out), out);
    show("漢", rf_strip(TEXT("漢"), out, sizeof out), out);
    show("17 parts", rf_keying(TEXT("a a a a a a a a a a a a a a a a a"), RF_KIND_NUMERIC, 0, out, sizeof out), out);
    show("keying 1 of a", rf_keying(TEXT("a"), RF_KIND_NUMERIC, 1, out, sizeof out), out);
    show("chhia in 4 bytes", rf_strip(TEXT("chhia"), out, 4), out);

    for (size_t at = 0; at < sizeof out; at++)
        expect("a refusal changes no byte", out[at] == '?');
    expect("256 bytes pass", rf_strip(long_text, RF_TEXT_MOST, out, sizeof out).code == 0);
}

/* A null pointer with length 0 is an empty text: each answer is that of "". */
static void null_texts(void)
{
    const uint8_t *some = (const uint8_t *)"a";
    uint8_t out[RF_KEYING_ROOM], other[RF_KEYING_ROOM];
    size_t room = sizeof out;
    rf_reply reply;
    memset(out, '?', room);
    memset(other, '?', room);

    expect("strip", same(rf_strip(NULL, 0, out, room), rf_strip(some, 0, other, room)));
    expect("tone letter", same(rf_tone_letter(NULL, 0), rf_tone_letter(some, 0)));
    expect("from raw", same(rf_from_raw(NULL, 0, out, room), rf_from_raw(some, 0, other, room)));
    expect("compose, raw input", same(rf_compose(NULL, 0, some, 1, 2, 0, out, room), rf_compose(some, 0, some, 1, 2, 0, other, room)));
    expect("compose, body", same(rf_compose(some, 1, NULL, 0, 2, 0, out, room), rf_compose(some, 1, some, 0, 2, 0, other, room)));
    expect("compose, both", same(rf_compose(NULL, 0, NULL, 0, 2, 0, out, room), rf_compose(some, 0, some, 0, 2, 0, other, room)));
    expect("candidate", same(rf_candidate(NULL, 0, 0, out, room), rf_candidate(some, 0, 0, other, room)));
    expect("align, keys", same(rf_align(NULL, 0, some, 1, out, room), rf_align(some, 0, some, 1, other, room)));
    expect("align, target", same(rf_align(some, 1, NULL, 0, out, room), rf_align(some, 1, some, 0, other, room)));
    for (uint64_t kind = RF_KIND_DETONED; kind <= RF_KIND_TELEX; kind++)
        expect("keying", same(rf_keying(NULL, 0, kind, 0, out, room), rf_keying(some, 0, kind, 0, other, room)));
    expect("telex", same(rf_telex(NULL, 0, 's', RF_MODE_TELEX, tone_keys, out, room),
                         rf_telex(some, 0, 's', RF_MODE_TELEX, tone_keys, other, room)));
    expect("the outputs are the same", memcmp(out, other, room) == 0);

    reply = rf_strip(NULL, 0, out, room);
    expect("the empty text has tone 1", reply.code == 0 && reply.length == 0 && reply.tone == 1);
    show("numeric keying of a null entry", rf_keying(NULL, 0, RF_KIND_NUMERIC, 0, out, room), out);
    show("telex of a null text and s", rf_telex(NULL, 0, 's', RF_MODE_TELEX, tone_keys, out, room), out);
}

/* A null pointer with length 0 is a buffer without room: an empty output fits, any other is refused with 7. */
static void null_buffers(void)
{
    rf_reply no_room = refusal(RF_NO_ROOM);

    expect("strip", same(rf_strip(TEXT("a"), NULL, 0), no_room));
    expect("from raw", same(rf_from_raw(TEXT("a"), NULL, 0), no_room));
    expect("compose", same(rf_compose(TEXT("a2"), TEXT("a"), 2, 0, NULL, 0), no_room));
    expect("candidate", same(rf_candidate(TEXT("a"), 0, NULL, 0), no_room));
    expect("align", same(rf_align(TEXT("a"), TEXT("a"), NULL, 0), no_room));
    expect("keying", same(rf_keying(TEXT("a"), RF_KIND_NUMERIC, 0, NULL, 0), no_room));
    expect("telex", same(rf_telex(TEXT("a"), 's', RF_MODE_TELEX, tone_keys, NULL, 0), no_room));

    show("strip of a null text into a null buffer", rf_strip(NULL, 0, NULL, 0), NULL);
    show("from raw of null keys into a null buffer", rf_from_raw(NULL, 0, NULL, 0), NULL);
    show("compose of null texts into a null buffer", rf_compose(NULL, 0, NULL, 0, 0, 0, NULL, 0), NULL);
    show("candidate of a null text into a null buffer", rf_candidate(NULL, 0, 0, NULL, 0), NULL);
    show("align of null texts into a null buffer", rf_align(NULL, 0, NULL, 0, NULL, 0), NULL);
    show("detoned keying of a null entry into a null buffer", rf_keying(NULL, 0, RF_KIND_DETONED, 0, NULL, 0), NULL);
    show("telex of a null text and a space into a null buffer", rf_telex(NULL, 0, ' ', RF_MODE_TELEX, tone_keys, NULL, 0), NULL);
}

/* Two texts of a call may be the same bytes: the body of a record is the beginning of its raw input. */
static void overlapping_texts(void)
{
    const uint8_t *raw = (const uint8_t *)"hoan2";
    uint8_t out[RF_COMPOSE_ROOM];
    show("compose hoan2, its body in place", rf_compose(raw, 5, raw, 4, 2, 0, out, sizeof out), out);
}

int main(void)
{
    _Static_assert(sizeof(rf_reply) == 7 * sizeof(uint64_t), "the reply is seven numbers of 64 bits");
    each_call();
    refusals();
    null_texts();
    null_buffers();
    overlapping_texts();
    return failures == 0 ? 0 : 1;
}
