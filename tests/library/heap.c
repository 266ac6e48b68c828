// Refuses each call of the allocator in turn, and then all from one on: heap PAGE... Each answer is the one with memory,
// or the refusal for lack of it. Each page is tried as it is, and with a byte after it that is refused.
#include "calls.h"
#include "refusing.h"

static uint8_t page[1 << 16];
static uint8_t room[1 << 20], kept[1 << 20];
static long runs, wanting;

static size_t read_page(const char *name) {
    FILE *file = fopen(name, "rb");
    must(file != NULL, "a page can't be read");
    size_t length = fread(page, 1, sizeof page - 1, file);
    fclose(file);
    return length;
}

// The calls that give a text, naplps_find, naplps_check, and naplps_check_begin and the others by pieces of 7 bytes.
enum { FIND = TEXT_CALLS, CHECK, PIECES, CALLS };

static struct naplps_answer call(int number, size_t length) {
    calls = 0;
    if (number == FIND) return naplps_find(1, page, length, room, sizeof room);
    if (number == CHECK) return naplps_check(1000, page, length);
    if (number == PIECES) return check_pieces(1000, page, length, 7);
    return text_calls[number].call(1000, page, length, room, sizeof room);
}

// One call of the library, with these calls of the allocator refused.
static void try_refusing(int number, size_t length, struct naplps_answer whole, long from, long to) {
    memset(room, UNTOUCHED, whole.length + 1);
    first = from, last = to;
    struct naplps_answer answer = call(number, length);
    first = last = 0;
    runs++;
    must(live == 0, "a block was left");
    if (are_equal(answer, whole)) {
        must(number > FIND || memcmp(room, kept, whole.length) == 0, "another text");
        return;
    }
    wanting++;
    must(answer.status == NAPLPS_REFUSED && answer.number == NAPLPS_MEMORY, "another answer than for want of memory");
    must(strcmp(answer.name, "Memory") == 0 && answer.length == 0 && answer.place <= length, "another want of memory");
    must(is_untouched(room, 0, whole.length + 1), "a room was written for want of memory");
}

// All calls of the library on a page.
static void try_page(size_t length) {
    for (int number = 0; number < CALLS; number++) {
        struct naplps_answer whole = call(number, length);
        long all = calls;
        must(live == 0 && whole.status <= NAPLPS_REFUSED, "the page itself");
        memcpy(kept, room, sizeof room);
        for (long i = 1; i <= all; i++) {
            try_refusing(number, length, whole, i, i);
            try_refusing(number, length, whole, i, all + 1000);
        }
    }
}

// The lines of a page, made into one again; with each call of the allocator refused.
static void try_lines(size_t length) {
    static uint8_t lines[1 << 20];
    struct naplps_answer list = naplps_list(1000, page, length, lines, sizeof lines);
    if (list.status != NAPLPS_ACCEPTED) return;
    calls = 0;
    struct naplps_made whole = naplps_make(lines, list.length, kept, sizeof kept);
    long all = calls;
    must(live == 0 && whole.status == NAPLPS_ACCEPTED, "the lines themselves");
    for (long i = 0; i < 2 * all; i++) {
        memset(room, UNTOUCHED, whole.length + 1);
        calls = 0, first = 1 + i / 2, last = i % 2 == 0 ? first : all + 1000;
        struct naplps_made made = naplps_make(lines, list.length, room, sizeof room);
        first = last = 0;
        runs++;
        must(live == 0, "a block was left of lines");
        if (made.status == NAPLPS_ACCEPTED) {
            must(memcmp(room, kept, whole.length) == 0, "another page of lines");
            continue;
        }
        wanting++;
        must(made.status == NAPLPS_REFUSED && made.fault == NAPLPS_NO_MEMORY && made.line == 0 && made.length == 0,
             "another answer to lines than for want of memory");
        must(is_untouched(room, 0, whole.length + 1), "a room was written for want of memory for lines");
    }
}

int main(int count, char **names) {
    for (int i = 1; i < count; i++) {
        size_t length = read_page(names[i]);
        try_page(length);
        try_lines(length);
        page[length] = 0x80;
        try_page(length + 1);
    }
    must(wanting > 0, "nothing was refused");
    printf("%ld runs, of which %ld lacked memory\n", runs, wanting);
    return 0;
}
