/* Makes one call of the archive so many times; run.sh counts its instructions.
 *   count TIMES CALL TEXT [SECOND]    SECOND: the position, the target or the key */
#include <stdio.h>
#include <stdlib.h>
#include <string.h>

#include "robinflint.h"

static const uint8_t tone_keys[7] = {'s', 'f', 'l', 'x', 'j', 'j', 'w'};

static rf_reply call(const char *name, const char *text, const char *second, uint8_t *out, size_t room) {
    const uint8_t *bytes = (const uint8_t *)text;
    size_t len = strlen(text);
    if (!strcmp(name, "strip")) return rf_strip(bytes, len, out, room);
    if (!strcmp(name, "tone_letter")) return rf_tone_letter(bytes, len);
    if (!strcmp(name, "from_raw")) return rf_from_raw(bytes, len, out, room);
    if (!strcmp(name, "compose")) return rf_compose(bytes, len, bytes, len - 1, text[len - 1] - '0', 0, out, room);
    if (!strcmp(name, "candidate")) return rf_candidate(bytes, len, strtoull(second, NULL, 10), out, room);
    if (!strcmp(name, "align")) return rf_align(bytes, len, (const uint8_t *)second, strlen(second), out, room);
    if (!strcmp(name, "telex")) return rf_telex(bytes, len, second[0], 1, tone_keys, out, room);
    if (!strcmp(name, "keying")) return rf_keying(bytes, len, 1, strtoull(second, NULL, 10), out, room);
    fprintf(stderr, "no call %s\n", name);
    exit(2);
}

int main(int argc, char **argv) {
    static uint8_t out[4096];
    if (argc < 4) return 2;
    for (long left = strtol(argv[1], NULL, 10); left > 0; left--) {
        if (call(argv[2], argv[3], argc > 4 ? argv[4] : "", out, sizeof out).code != 0) return 1;
    }
    return 0;
}
