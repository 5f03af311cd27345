/* What the bytes of an input ask for.
 *
 * | byte | what |
 * |---|---|
 * | 0 | bits 0-2 the call, 3 the text lies at the start of its page, 4 the second text, 5 the buffer, 6 what is empty is a null pointer, 7 a wide number |
 * | 1 | bits 0-2 the kind of room, 3 the texts are spelled, 4-7 how often the text is repeated |
 * | 2, 3 | the numbers |
 * | 4, 5 | bits 0-12 the length of the second text, little-endian; 13, 14 the text adjoins the buffer before or behind it; 15 the second text is the front of the text again |
 * | 6 | a number for the room |
 * | 7 | only with a wide number: bits 0 and 1 say which numbers it replaces |
 * | 8-15 | only with a wide number: the number, little-endian |
 *
 * Then the text and, as the last bytes, the second text. Bytes that are missing are 0, so that every input is a call. Of most numbers
 * most values are in range. A spelled text has a telling code point for each byte above 7F, so that it is well formed. */
#include "fuzz.h"
#include <string.h>
#include <uchar.h>

static const char16_t telling[] =
#include "telling.h"
    ;
_Static_assert(sizeof telling / sizeof *telling == 128 + 1, "a telling code point for each byte above 7F");

/* The bytes before the texts, without a wide number. */
enum { HEADER = 7 };

size_t LLVMFuzzerMutate(uint8_t *data, size_t size, size_t most);

static const unsigned char repeats[16] = {1, 1, 1, 1, 1, 1, 1, 1, 1, 1, 2, 3, 16, 17, 86, 255};

static struct page text_page, second_page;

void input_initialize(void) {
    text_page = page_new(true);
    second_page = page_new(true);
}

/* Bytes that are read one after another. */
struct bytes {
    const uint8_t *data;
    size_t left;
};

static uint8_t next(struct bytes *from) {
    if (from->left == 0) {
        return 0;
    }
    from->left--;
    return *from->data++;
}

static uint64_t next_wide(struct bytes *from) {
    uint64_t number = 0;
    for (unsigned shift = 0; shift < 64; shift += 8) {
        number |= (uint64_t)next(from) << shift;
    }
    return number;
}

/* A number below `bound` for most bytes, and one of the eight from `bound` on for the last eight. */
static uint64_t small(uint8_t byte, unsigned bound) { return byte < 248 ? byte % bound : bound + (byte - 248); }

/* Printable bytes and those next to them stay; the others become printable, so that most are. */
static uint8_t printable(uint8_t byte) { return byte >= 0x1F && byte <= 0x7F ? byte : 0x21 + byte % 94; }

static void read_numbers(struct asked *asked, uint8_t first, uint8_t second) {
    static const unsigned char bounds[CALLS][2] = {[CANDIDATE] = {2, 1}, [COMPOSE] = {10, 2}, [KEYING] = {3, 0}, [TELEX] = {0, 2}};
    const unsigned char *bound = bounds[asked->call];
    asked->numbers[0] = bound[0] ? small(first, bound[0]) : printable(first);
    asked->numbers[1] = bound[1] ? small(second, bound[1]) : second;
}

/* UTF-8 of a code point of the list; returns its size. */
static size_t spell(char16_t point, uint8_t to[3]) {
    if (point < 0x800) {
        to[0] = 0xC0 | point >> 6;
        to[1] = 0x80 | (point & 0x3F);
        return 2;
    }
    to[0] = 0xE0 | point >> 12;
    to[1] = 0x80 | (point >> 6 & 0x3F);
    to[2] = 0x80 | (point & 0x3F);
    return 3;
}

/* Writes a text, spelled or as it is; returns its size, at most a page. */
static size_t write_text(const uint8_t *from, size_t length, bool spelled, uint8_t to[PAGE]) {
    size_t size = 0;
    for (size_t i = 0; i < length; i++) {
        uint8_t one[3] = {from[i]};
        size_t more = spelled && from[i] >= 0x80 ? spell(telling[from[i] - 0x80], one) : 1;
        if (size + more > PAGE) {
            break;
        }
        memcpy(to + size, one, more);
        size += more;
    }
    return size;
}

/* Repeats the first `size` bytes as often as asked for, at most to the end of the page. */
static size_t repeat(uint8_t bytes[PAGE], size_t size, unsigned times) {
    size_t whole = size;
    while (--times > 0 && whole + size <= PAGE) {
        memcpy(bytes + whole, bytes, size);
        whole += size;
    }
    return whole;
}

/* Puts a text into its page and says where the call sees it. */
static const uint8_t *put(const struct page *page, const uint8_t *bytes, size_t length, bool at_start, bool null_when_empty) {
    size_t offset = page_offset(length, at_start);
    memcpy(page->written + offset, bytes, length);
    return length == 0 && null_when_empty ? NULL : page->seen + offset;
}

/* The seven tone keys, made printable beside a spelled text; those that the input does not give are the usual ones. */
static void write_tone_keys(const uint8_t *from, size_t length, bool spelled, uint8_t to[7]) {
    memcpy(to, "sflxjjw", 7);
    for (size_t i = 0; i < length && i < 7; i++) {
        to[i] = spelled ? printable(from[i]) : from[i];
    }
}

/* Fills in the second text, where the call has one; returns how many of the last bytes it took. */
static size_t read_second(struct asked *asked, const struct bytes *rest, unsigned field, bool spelled, uint8_t to[PAGE]) {
    if (asked->call != ALIGN && asked->call != COMPOSE && asked->call != TELEX) {
        return 0;
    }
    size_t length = field & 0x1FFF;
    length = length < rest->left ? length : rest->left;
    bool again = field >> 15;
    const uint8_t *from = again ? rest->data : rest->data + rest->left - length;
    if (asked->call == TELEX) {
        write_tone_keys(from, length, spelled, to);
        asked->second_len = 7;
    } else {
        asked->second_len = write_text(from, length, spelled, to);
    }
    return again ? 0 : length;
}

struct input input_read(const uint8_t *data, size_t size) {
    static uint8_t text[PAGE], second[PAGE];
    struct bytes rest = {data, size};
    struct input input = {0};
    struct asked *asked = &input.asked;
    uint8_t flags = next(&rest), ways = next(&rest), first = next(&rest), other = next(&rest);
    asked->call = flags % CALLS;
    read_numbers(asked, first, other);
    unsigned field = next(&rest);
    field |= (unsigned)next(&rest) << 8;
    input.room_kind = ways & 7;
    input.room_number = next(&rest);
    input.out_at_start = flags >> 5 & 1;
    input.null_when_empty = flags >> 6 & 1;
    input.adjoins = field >> 13 & 3;
    if (flags >> 7) {
        uint8_t which = next(&rest);
        uint64_t wide = next_wide(&rest);
        asked->numbers[0] = which & 1 ? wide : asked->numbers[0];
        asked->numbers[1] = which & 2 ? wide : asked->numbers[1];
    }
    bool spelled = ways >> 3 & 1;
    rest.left -= read_second(asked, &rest, field, spelled, second);
    asked->text_len = repeat(text, write_text(rest.data, rest.left, spelled, text), repeats[ways >> 4]);
    asked->text = put(&text_page, text, asked->text_len, flags >> 3 & 1, input.null_when_empty);
    asked->second = put(&second_page, second, asked->second_len, flags >> 4 & 1, input.null_when_empty);
    return input;
}

/* Numbers that the seed gives, one after another. */
static unsigned draw(uint64_t *state) {
    *state = *state * 6364136223846793005 + 1442695040888963407;
    return *state >> 33;
}

/* A new input with spelled texts of up to five code points, at random. */
static size_t input_new(uint8_t *data, unsigned seed) {
    static const char letters[] = "aeioumnghptkcsjlbOANEI--123580 xr";
    uint64_t state = seed;
    for (size_t at = 0; at < HEADER; at++) {
        data[at] = draw(&state);
    }
    data[0] &= 0x7F;
    data[1] = (data[1] & 0x07) | 0x08;
    data[4] %= 4;
    data[5] &= 0xE0;
    size_t count = 1 + draw(&state) % 5;
    for (size_t at = HEADER; at < HEADER + count; at++) {
        data[at] = draw(&state) & 1 ? 0x80 | (draw(&state) & 0x7F) : (uint8_t)letters[draw(&state) % (sizeof letters - 1)];
    }
    return HEADER + count;
}

/* libFuzzer's mutations, and now and then a new input: short texts are many, and mutations of kept inputs come by few of them. */
size_t LLVMFuzzerCustomMutator(uint8_t *data, size_t size, size_t most, unsigned seed) {
    if (seed % 8 == 0 && most >= HEADER + 5) {
        return input_new(data, seed / 8);
    }
    return LLVMFuzzerMutate(data, size, most);
}

/* The size of the buffer to lend, where the whole output takes `output` bytes. */
size_t input_room(const struct input *input, size_t output) {
    size_t number = input->room_number;
    size_t rooms[8] = {output, output ? output - 1 : 0, output + 1, 0, output + number, number, 16 * number, output};
    size_t room = rooms[input->room_kind];
    return room < PAGE ? room : PAGE;
}
