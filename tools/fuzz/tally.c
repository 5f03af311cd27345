/* Counts, by call and by answer. */
#include "fuzz.h"
#include <inttypes.h>
#include <stdio.h>

/* The refusals are 1 to 7; place 0 counts what is accepted. */
enum { CODES = 8 };

static struct {
    uint64_t codes[CODES];
    uint64_t chance;
} tallies[CALLS];

/* The number of bits of a length, so that lengths count as different when one is about twice the other: 0 to 13. */
static unsigned bits(uint64_t number) {
    unsigned count = 0;
    while (number > 0 && count < 13) {
        count++;
        number >>= 1;
    }
    return count;
}

/* libFuzzer takes these as branches: a kind of answer that was not seen before is an input to keep. Only it reads them, hence volatile. */
enum { TONES = 10, SIZES = 14, KINDS = CODES * SIZES + 2 * TONES * SIZES + SIZES };
__attribute__((section("__libfuzzer_extra_counters"))) static volatile uint8_t kinds[CALLS][KINDS];

void tally_add(const struct asked *asked, const struct expected *expected) {
    const rf_reply *reply = &expected->reply;
    tallies[asked->call].codes[reply->code]++;
    tallies[asked->call].chance += expected->chance != 0;
    volatile uint8_t *kind = kinds[asked->call];
    kind[reply->code * SIZES + bits(asked->text_len)] = 1;
    kind += CODES * SIZES;
    kind[(reply->khin * TONES + reply->tone) * SIZES + bits(reply->length)] = 1;
    kind += 2 * TONES * SIZES;
    kind[bits(reply->count)] = 1;
}

uint64_t tally_count(void) {
    uint64_t all = 0;
    for (int call = 0; call < CALLS; call++) {
        for (int code = 0; code < CODES; code++) {
            all += tallies[call].codes[code];
        }
    }
    return all;
}

static void print_row(const char *name, const uint64_t codes[CODES], uint64_t chance) {
    uint64_t all = 0;
    for (int code = 0; code < CODES; code++) {
        all += codes[code];
    }
    printf("| %s | %" PRIu64 " |", name, all);
    for (int code = 0; code < CODES; code++) {
        printf(" %" PRIu64 " |", codes[code]);
    }
    printf(" %" PRIu64 " |\n", chance);
}

void tally_print(void) {
    uint64_t sum[CODES] = {0}, chance = 0;
    printf("| call | executions | accepted | refused 1 | 2 | 3 | 4 | 5 | 6 | 7 | hash order |\n");
    printf("|---|---:|---:|---:|---:|---:|---:|---:|---:|---:|---:|\n");
    for (int call = 0; call < CALLS; call++) {
        print_row(call_names[call], tallies[call].codes, tallies[call].chance);
        for (int code = 0; code < CODES; code++) {
            sum[code] += tallies[call].codes[code];
        }
        chance += tallies[call].chance;
    }
    print_row("all", sum, chance);
    blocks_print();
    fflush(stdout);
}
