/* Prints the words of a canonical stream with their places, or why the stream is refused:

       cc -o words words.c
       ./words < page.canonical

   It is made from the tables of docs/CANONICAL.md alone, and needs no library. A line has the place where the text
   begins, as x,y or `start` or `after`; how many characters of this text stand before the word; and the word. */
#include <stdint.h>
#include <stdio.h>
#include <stdlib.h>
#include <string.h>

#define ONE (1 << 23)
#define MOST_KNOWN 16

enum pen { START, AFTER, AT };
enum colour { OWN, FRONT, PAIR, RESET };

struct point { int32_t x, y; };
struct value { uint32_t green, red, blue; };
struct known { uint32_t address; struct value value; };
struct state { enum pen pen; struct point at; enum colour colour; uint32_t address; };

struct page {
    const uint8_t *bytes;
    size_t length, at;
    struct state state, saved;
    int in_definition, draws, after_character;
    struct known known[MOST_KNOWN];
    int known_count;
    FILE *out; /* null where nothing is printed yet */
    int in_text, in_word;
    enum pen text_pen;
    struct point text_at;
    unsigned long column;
    const char *reason;
    size_t place;
};

/* The opcodes: the lengths that the run of each may have, from least to most in steps. */
struct run { uint8_t opcode; uint16_t least, most, step; };
static const struct run RUNS[] = {
    {0x20, 2, 2, 1},      {0x21, 1, 9, 8},      {0x22, 2, 10, 8},     {0x23, 1, 9, 8},      {0x24, 8, 8, 8},
    {0x26, 8, 16384, 8},  {0x28, 8, 16384, 8},  {0x2A, 16, 16384, 16}, {0x2E, 24, 16008, 8}, {0x2F, 24, 16008, 8},
    {0x32, 16, 16384, 16}, {0x33, 16, 16384, 16}, {0x36, 16, 16008, 8}, {0x37, 16, 16008, 8}, {0x38, 0, 16, 16},
    {0x3C, 8, 8, 8},      {0x3D, 1, 1, 1},      {0x3E, 0, 8, 4},      {0x3F, 0, 7, 7}};

static int refuse(struct page *page, const char *reason, size_t place) {
    page->reason = reason;
    page->place = place;
    return 0;
}

static void end_word(struct page *page) {
    if (page->in_word && page->out) fputc('\n', page->out);
    page->in_word = 0;
}

/* An entry that is no character of the primary set: the text ends. */
static void other_entry(struct page *page) {
    end_word(page);
    page->in_text = page->after_character = 0;
}

/* An entry that holds the pen, which then is nowhere known. */
static void entry_with_pen(struct page *page) {
    other_entry(page);
    page->state.pen = AFTER;
}

static void begin_word(struct page *page) {
    page->in_word = 1;
    if (!page->out) return;
    if (page->text_pen == AT)
        fprintf(page->out, "%ld,%ld", (long)page->text_at.x, (long)page->text_at.y);
    else
        fputs(page->text_pen == START ? "start" : "after", page->out);
    fprintf(page->out, " +%lu ", page->column);
}

/* A character of the primary set; those that draw a glyph or a mask are no words of the page. */
static void letter(struct page *page, uint8_t code) {
    if (!page->in_text || page->state.pen != AFTER) {
        end_word(page);
        page->in_text = 1;
        page->text_pen = page->state.pen;
        page->text_at = page->state.at;
        page->column = 0;
    }
    if (!page->in_definition && code > 0x20 && code < 0x7F) {
        if (!page->in_word) begin_word(page);
        if (page->out) fputc(code, page->out);
    } else {
        end_word(page);
    }
    page->column++;
    page->after_character = 1;
    page->state.pen = AFTER;
}

/* A character of another set. */
static void sign(struct page *page) {
    entry_with_pen(page);
    page->after_character = 1;
}

static int next(struct page *page, uint8_t *byte) {
    if (page->at >= page->length) return refuse(page, "Cut", page->length);
    *byte = page->bytes[page->at++];
    return 1;
}

static int argument(struct page *page, uint8_t least, uint8_t most, uint8_t *byte) {
    if (!next(page, byte)) return 0;
    return (*byte >= least && *byte <= most) || refuse(page, "BadArgument", page->at - 1);
}

static int expect(struct page *page, const char *wanted) {
    uint8_t byte;
    for (; *wanted; wanted++) {
        if (!next(page, &byte)) return 0;
        if (byte != (uint8_t)*wanted) return refuse(page, "BadCode", page->at - 1);
    }
    return 1;
}

/* A point or a displacement: three bits of x and three of y in each word, in two's complement. */
static struct point pair_of(const uint8_t *run) {
    uint32_t x = 0, y = 0;
    for (int i = 0; i < 8; i++) {
        x = x << 3 | (run[i] >> 3 & 7);
        y = y << 3 | (run[i] & 7);
    }
    return (struct point){(int32_t)(x ^ ONE) - ONE, (int32_t)(y ^ ONE) - ONE};
}

static uint32_t address_of(const uint8_t *run) {
    uint32_t address = 0;
    for (int i = 0; i < 4; i++) address = address << 6 | (run[i] & 63);
    return address;
}

/* One part of a colour: the bit `high` of each word, and the one three places below it. */
static uint32_t part_of(const uint8_t *run, int high) {
    uint32_t part = 0;
    for (int i = 0; i < 8; i++) part = part << 2 | (run[i] >> high & 1) << 1 | (run[i] >> (high - 3) & 1);
    return part;
}

static int on_screen(struct point point) {
    return point.x >= 0 && point.x < ONE && point.y >= 0 && point.y < ONE;
}

static struct point sum(struct point point, struct point move) {
    return (struct point){point.x + move.x, point.y + move.y};
}

/* Points, lines, and the pen that is set: all operands are points. */
static int points(struct page *page, uint8_t opcode, size_t start, const uint8_t *run, size_t length) {
    if (opcode == 0x28 && page->state.pen != AT) return refuse(page, "PenUnknown", start);
    for (size_t i = 0; i < length; i += 8) {
        if (!on_screen(pair_of(run + i))) return refuse(page, "Outside", start);
    }
    page->state.pen = AT;
    page->state.at = pair_of(run + length - 8);
    if (opcode != 0x24) other_entry(page);
    return 1;
}

/* Rectangles and a part of the field: a corner and the way to the other one, once or more. */
static int corners(struct page *page, uint8_t opcode, size_t start, const uint8_t *run, size_t length) {
    struct point from = {0, 0}, to = {0, 0};
    for (size_t i = 0; i < length; i += 16) {
        from = pair_of(run + i);
        to = sum(from, pair_of(run + i + 8));
        if (!on_screen(from) || !on_screen(to)) return refuse(page, "Outside", start);
    }
    if (opcode == 0x38) {
        entry_with_pen(page);
        return 1;
    }
    page->state.pen = AT;
    page->state.at = (struct point){to.x, from.y};
    other_entry(page);
    return 1;
}

/* Arcs and polygons: a point, and the way to each next one. */
static int outline(struct page *page, uint8_t opcode, size_t start, const uint8_t *run, size_t length) {
    struct point first = pair_of(run), last = first;
    if (!on_screen(first)) return refuse(page, "Outside", start);
    for (size_t i = 8; i < length; i += 8) {
        last = sum(last, pair_of(run + i));
        if (!on_screen(last)) return refuse(page, "Outside", start);
    }
    page->state.pen = AT;
    page->state.at = opcode < 0x30 ? last : first;
    other_entry(page);
    return 1;
}

static int reset(struct page *page, size_t start, const uint8_t *run) {
    int domain = page->length - page->at >= 2 && memcmp(page->bytes + page->at, "\x21\x5F", 2) == 0;
    int code = run[0] >> 1 & 3;
    if ((run[0] & 1) && !domain) return refuse(page, "OperandLength", start);
    entry_with_pen(page);
    if (code) {
        page->known_count = 0;
        page->state.colour = code == 1 ? OWN : RESET;
    }
    return 1;
}

static int set_colour(struct page *page, size_t start, const uint8_t *run) {
    struct known set = {page->state.address, {part_of(run, 5), part_of(run, 4), part_of(run, 3)}};
    int place = 0, last;
    if (page->state.colour == RESET) return refuse(page, "NoAddress", start);
    if (page->state.colour == OWN) return 1;
    while (place < page->known_count && page->known[place].address != set.address) place++;
    if (place < page->known_count && memcmp(&page->known[place].value, &set.value, sizeof set.value) == 0)
        return refuse(page, "KnownColour", start);
    last = place < MOST_KNOWN ? place : MOST_KNOWN - 1;
    memmove(page->known + 1, page->known, (size_t)last * sizeof set);
    page->known[0] = set;
    if (place == page->known_count && place < MOST_KNOWN) page->known_count++;
    other_entry(page);
    return 1;
}

static int opcode(struct page *page, uint8_t opcode, const struct run *takes) {
    size_t start = page->at - 1, length;
    const uint8_t *run = page->bytes + page->at;
    while (page->at < page->length && page->bytes[page->at] >> 6 == 1) page->at++;
    length = page->at - start - 1;
    if (length < takes->least || length > takes->most || (length - takes->least) % takes->step)
        return refuse(page, "BadOperands", start);
    if (opcode == 0x21 && run[0] != 0x5F) return refuse(page, "OperandLength", start);
    switch (opcode) {
    case 0x20: return reset(page, start, run);
    case 0x24: case 0x26: case 0x28: case 0x2A: return points(page, opcode, start, run, length);
    case 0x2E: case 0x2F: case 0x36: case 0x37: return outline(page, opcode, start, run, length);
    case 0x32: case 0x33: case 0x38: return corners(page, opcode, start, run, length);
    case 0x3C: return set_colour(page, start, run);
    case 0x3D: case 0x3F: other_entry(page); return 1;
    case 0x3E:
        page->state.colour = length == 0 ? OWN : length == 4 ? FRONT : PAIR;
        if (length) page->state.address = address_of(run);
        return 1;
    default: return 1; /* DOMAIN, TEXT and TEXTURE change nothing that words have */
    }
}

/* The start of a glyph or a mask, or the end of one. */
static int definition(struct page *page, uint8_t byte) {
    if ((byte == 0x45) != page->in_definition) return refuse(page, "BadDefinition", page->at - 1);
    if (byte == 0x45) {
        page->state = page->saved;
    } else {
        if (!(byte == 0x43 ? argument(page, 0x20, 0x7F, &byte) : argument(page, 0x41, 0x44, &byte))) return 0;
        page->saved = page->state;
        page->state.pen = START;
    }
    page->in_definition = !page->in_definition;
    other_entry(page);
    return 1;
}

/* ESC and the byte after it. */
static int control(struct page *page) {
    uint8_t byte;
    if (!next(page, &byte)) return 0;
    switch (byte) {
    case 0x2B:
        if (!expect(page, "\x7B\x1D") || !argument(page, 0x20, 0x7F, &byte) || !expect(page, "\x1B\x2B\x7D")) return 0;
        sign(page);
        return 1;
    case 0x43: case 0x44: case 0x45: return definition(page, byte);
    case 0x47:
        if (!page->after_character) return refuse(page, "NothingToRepeat", page->at - 1);
        entry_with_pen(page);
        return 1;
    case 0x4E: case 0x5E: case 0x5B: case 0x5C: case 0x5D: other_entry(page); return 1;
    case 0x48: case 0x49: case 0x4A: case 0x4B: case 0x4C: case 0x4D: case 0x4F: case 0x55: case 0x56: case 0x57:
    case 0x58: case 0x59: case 0x5A: return 1;
    default: return refuse(page, "BadCode", page->at - 1);
    }
}

static const struct run *run_of(uint8_t opcode) {
    for (size_t i = 0; i < sizeof RUNS / sizeof *RUNS; i++) {
        if (RUNS[i].opcode == opcode) return &RUNS[i];
    }
    return NULL;
}

static int code(struct page *page) {
    uint8_t byte = page->bytes[page->at++];
    const struct run *takes = run_of(byte);
    switch (byte) {
    case 0x1B: return control(page);
    case 0x0E: case 0x0F: page->draws = byte == 0x0E; return 1;
    case 0x07: other_entry(page); return 1;
    case 0x08: case 0x09: case 0x0A: case 0x0B: case 0x0C: case 0x0D: case 0x1E: entry_with_pen(page); return 1;
    case 0x1C:
        if (!argument(page, 0x20, 0x7F, &byte) || !argument(page, 0x20, 0x7F, &byte)) return 0;
        entry_with_pen(page);
        return 1;
    case 0x19: case 0x1D:
        if (!argument(page, 0x20, 0x7F, &byte)) return 0;
        sign(page);
        return 1;
    default: break;
    }
    if (byte >= 0x20 && byte < 0x80 && !page->draws) {
        letter(page, byte);
        return 1;
    }
    return page->draws && takes ? opcode(page, byte, takes) : refuse(page, "BadCode", page->at - 1);
}

/* Reads a stream, and prints its words if there is somewhere to; answers whether it is canonical, as far as is seen. */
static int read_page(struct page *page, const uint8_t *bytes, size_t length, FILE *out) {
    static const uint8_t header[] = {0x0E, 0x21, 0x5F};
    memset(page, 0, sizeof *page);
    page->bytes = bytes;
    page->length = length;
    page->out = out;
    for (size_t i = 0; i < sizeof header; i++) {
        if (i >= length || bytes[i] != header[i]) return refuse(page, "BadHeader", i);
    }
    if (length > 3 && 0x40 <= bytes[3] && bytes[3] < 0x80) return refuse(page, "BadHeader", 3);
    page->at = 1;
    page->draws = 1;
    while (page->at < length) {
        if (!code(page)) return 0;
    }
    end_word(page);
    return !page->in_definition || refuse(page, "Unended", length);
}

/* All of standard input, in memory; null where it can't be read. */
static uint8_t *read_input(size_t *length) {
    uint8_t *bytes = NULL, *more;
    size_t count = 0;
    *length = 0;
    do {
        *length += count;
        more = realloc(bytes, *length + 65536);
        if (!more) {
            free(bytes);
            return NULL;
        }
        bytes = more;
    } while ((count = fread(bytes + *length, 1, 65536, stdin)) > 0);
    return bytes;
}

int main(void) {
    struct page page;
    size_t length;
    uint8_t *bytes = read_input(&length);
    int canonical;
    if (!bytes || ferror(stdin)) {
        fputs("words: standard input can't be read\n", stderr);
        free(bytes);
        return 1;
    }
    canonical = read_page(&page, bytes, length, NULL);
    if (canonical) {
        read_page(&page, bytes, length, stdout);
    } else {
        fprintf(stderr, "refused %s at %lu\n", page.reason, (unsigned long)page.place);
    }
    free(bytes);
    if (fflush(stdout) != 0) {
        perror("words");
        return 1;
    }
    return canonical ? 0 : 1;
}
