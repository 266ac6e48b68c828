// Answers that are known of pages that are known, with each status; and the layout of the struct.
#include "calls.h"

#include <stddef.h>

_Static_assert(sizeof(struct naplps_answer) == 56, "the size of an answer");
_Static_assert(offsetof(struct naplps_answer, place) == 8, "where the place is");
_Static_assert(offsetof(struct naplps_answer, length) == 16, "where the length is");
_Static_assert(offsetof(struct naplps_answer, name) == 24, "where the name is");
_Static_assert(sizeof(struct naplps_made) == 48, "the size of what is made");
_Static_assert(offsetof(struct naplps_made, line) == 8, "where the line is");
_Static_assert(offsetof(struct naplps_made, length) == 32, "where the length of a page is");
_Static_assert(sizeof(struct naplps_checking) == sizeof(void *), "the size of a page that is begun");

#define BYTES(text) (const uint8_t *)(text), sizeof(text) - 1
#define POINT "\x0E\x26\x52\x40\x40"
#define POINT_LINE "POINT 4194304,4194304 pel=0,0 colour=own-start\n"
#define OUTSIDE "\x0E\x26\x52\x28\x7F"
#define MACRO "\x1B\x40\x41\x0E\x26\x52\x0F\x1B\x45\x1B\x2A\x7A\x19\x41"

static int passed;

static void check(int right, const char *what) {
    must(right, what);
    passed++;
}

static int says(struct naplps_answer answer, uint32_t status, uint32_t number, uint64_t place, const char *name,
                uint64_t length) {
    char padded[sizeof answer.name] = {0};
    memcpy(padded, name, strlen(name));
    return answer.status == status && answer.number == number && answer.place == place && answer.length == length &&
           memcmp(answer.name, padded, sizeof padded) == 0;
}

static int is_made(struct naplps_made made, uint32_t status, uint64_t length, uint64_t count) {
    return made.status == status && made.fault == 0 && made.line == 0 && made.column == 0 && made.opening == 0 &&
           made.length == length && made.count == count;
}

static int is_unmade(struct naplps_made made, uint32_t fault, uint64_t line, uint64_t column, uint64_t opening) {
    return made.status == NAPLPS_REFUSED && made.fault == fault && made.line == line && made.column == column &&
           made.opening == opening && made.length == 0 && made.count == 0;
}

static void gives(text_call *call, const uint8_t *page, size_t length, const void *text, size_t size,
                  const char *what) {
    uint8_t room[256];
    struct naplps_answer answer = call(0, page, length, room, sizeof room);
    check(says(answer, NAPLPS_ACCEPTED, 0, 0, "", size) && memcmp(room, text, size) == 0, what);
}

static void try_empty(void) {
    check(says(naplps_check(0, NULL, 0), NAPLPS_ACCEPTED, 0, 0, "", 0), "check of nothing");
    check(says(naplps_list(0, NULL, 0, NULL, 0), NAPLPS_ACCEPTED, 0, 0, "", 0), "list of nothing");
    check(says(naplps_places(0, NULL, 0, NULL, 0), NAPLPS_ACCEPTED, 0, 0, "", 0), "places of nothing");
    check(says(naplps_canon(0, NULL, 0, NULL, 0), NAPLPS_SMALL_ROOM, 0, 0, "", 3), "canon of nothing needs a room");
    gives(naplps_canon, NULL, 0, BYTES("\x0E\x21\x5F"), "canon of nothing");
    gives(naplps_canon_form1, NULL, 0, BYTES("\x0E\x21\x5F"), "form 1 of nothing");
    check(naplps_is_plain(NULL, 0), "nothing is plain");
    check(says(naplps_check(0, BYTES("\0A\0B\0")), NAPLPS_ACCEPTED, 0, 0, "", 2), "a page with NUL");
}

// Of a page that is refused no text is given but the places before the refusal.
static void try_refused(void) {
    check(says(naplps_check(0, BYTES(OUTSIDE)), NAPLPS_REFUSED, NAPLPS_OUTSIDE, 3, "Outside", 0), "check of a refusal");
    for (int i = 0; i < TEXT_CALLS; i++) {
        uint8_t room[64];
        memset(room, UNTOUCHED, sizeof room);
        struct naplps_answer answer = text_calls[i].call(0, BYTES(OUTSIDE), room, sizeof room);
        int has_text = text_calls[i].call == naplps_places;
        size_t size = has_text ? strlen("3 " POINT_LINE) : 0;
        check(says(answer, NAPLPS_REFUSED, NAPLPS_OUTSIDE, 3, "Outside", size), "a refusal");
        check(memcmp(room, "3 " POINT_LINE, size) == 0 && is_untouched(room, size, sizeof room),
              "the room of a refusal");
    }
    struct naplps_answer small = naplps_places(0, BYTES(OUTSIDE), NULL, 0);
    check(says(small, NAPLPS_SMALL_ROOM, NAPLPS_OUTSIDE, 3, "Outside", strlen("3 " POINT_LINE)),
          "a refusal and a small room");
    check(says(naplps_check(0, BYTES("\x18")), NAPLPS_REFUSED, NAPLPS_LEFT_OUT, 0, "LeftOut CAN", 0),
          "the name of what is left out");
}

// Lines that make a page, with rooms of each kind; and lines that make none.
static void try_lines(void) {
    const char point[] = "\x0E\x21\x5F\x26\x52\x40\x40\x40\x40\x40\x40\x40";
    uint8_t room[64];
    memset(room, UNTOUCHED, sizeof room);
    check(is_made(naplps_make(BYTES(POINT_LINE), NULL, 0), NAPLPS_SMALL_ROOM, 12, 1), "no room for a page");
    check(is_made(naplps_make(BYTES(POINT_LINE), room, 11), NAPLPS_SMALL_ROOM, 12, 1), "a small room for a page");
    check(is_unmade(naplps_make(BYTES(POINT_LINE "END\n"), room, 64), NAPLPS_MISFIT, 2, 0, 0), "a stray END");
    check(is_unmade(naplps_make(BYTES("BELL\nGLYPH 41\n" POINT_LINE), room, 64), NAPLPS_UNCLOSED, 3, 0, 2), "no END");
    check(is_unmade(naplps_make(BYTES("WAIT 63\nWAIT 64\n"), room, 64), NAPLPS_NO_LINE, 2, 6, 0), "a number too large");
    check(is_untouched(room, 0, sizeof room), "a room of lines that make no page");
    check(is_made(naplps_make(BYTES(POINT_LINE), room, 12), NAPLPS_ACCEPTED, 12, 1), "a point from its line");
    check(memcmp(room, point, 12) == 0 && is_untouched(room, 12, sizeof room), "the page of a point");
    check(is_made(naplps_make(NULL, 0, room, 64), NAPLPS_ACCEPTED, 3, 0), "a page of no lines");
}

// A page between zeros, with rooms of each kind; bytes after it may change what is found from the row that is open.
static void try_finds(void) {
    const char *const text = "17 24\nopen 17 passed 0\n";
    uint8_t room[64], bytes[24] = {0};
    size_t size = strlen(text);
    memcpy(bytes + 17, "\x0C" POINT, 6);
    bytes[23] = 0x41;
    memset(room, UNTOUCHED, sizeof room);
    check(says(naplps_find(1, bytes, 24, NULL, 0), NAPLPS_SMALL_ROOM, 0, 17, "", size), "no room for finds");
    struct naplps_answer small = naplps_find(1, bytes, 24, room, size - 1);
    check(says(small, NAPLPS_SMALL_ROOM, 0, 17, "", size), "a small room for finds");
    check(is_untouched(room, 0, sizeof room), "the small room");
    check(says(naplps_find(1, bytes, 24, room, 64), NAPLPS_ACCEPTED, 0, 17, "", size), "a page between zeros");
    check(memcmp(room, text, size) == 0 && is_untouched(room, size, sizeof room), "the lines of finds");
    check(says(naplps_find(UINT32_MAX, bytes, 24, room, 64), NAPLPS_ACCEPTED, 0, 17, "", 17), "the greatest number");
    check(memcmp(room, "open 17 passed 0\n", 17) == 0, "no find");
    check(says(naplps_find(0, NULL, 0, room, 64), NAPLPS_ACCEPTED, 0, 0, "", 16), "finds in nothing");
    check(memcmp(room, "open 0 passed 0\n", 16) == 0, "no byte");
}

static void try_budgets(void) {
    check(says(naplps_check(NAPLPS_BUDGET_MOST, BYTES(MACRO)), NAPLPS_ACCEPTED, 0, 0, "", 1), "the greatest budget");
    check(says(naplps_check(NAPLPS_BUDGET_USUAL, BYTES(MACRO)), NAPLPS_ACCEPTED, 0, 0, "", 1), "the usual budget");
    for (uint32_t over = NAPLPS_BUDGET_MOST + 1; over != 0; over = over == UINT32_MAX ? 0 : UINT32_MAX) {
        check(says(naplps_check(over, BYTES(POINT)), NAPLPS_NO_BUDGET, 0, 0, "", 0), "no such budget");
        for (int i = 0; i < TEXT_CALLS; i++) {
            uint8_t room[64];
            memset(room, UNTOUCHED, sizeof room);
            struct naplps_answer answer = text_calls[i].call(over, BYTES(POINT), room, sizeof room);
            check(says(answer, NAPLPS_NO_BUDGET, 0, 0, "", 0) && is_untouched(room, 0, sizeof room), "no such budget");
        }
    }
}

static void try_begun(void) {
    struct naplps_checking checking = {0};
    naplps_check_drop(&checking);
    check(says(naplps_check_feed(&checking, BYTES(POINT)), NAPLPS_NOT_BEGUN, 0, 0, "", 0), "a piece of no page");
    check(says(naplps_check_finish(&checking), NAPLPS_NOT_BEGUN, 0, 0, "", 0), "the end of no page");
    naplps_check_begin(&checking, 0);
    check(says(naplps_check_finish(&checking), NAPLPS_ACCEPTED, 0, 0, "", 0), "no piece");
    check(says(naplps_check_finish(&checking), NAPLPS_NOT_BEGUN, 0, 0, "", 0), "a page that has ended");
    naplps_check_begin(&checking, 0);
    check(says(naplps_check_feed(&checking, BYTES(OUTSIDE)), NAPLPS_ACCEPTED, 0, 0, "", 0), "a run that is still open");
    for (int i = 0; i < 2; i++) {
        check(says(naplps_check_feed(&checking, BYTES(POINT)), NAPLPS_REFUSED, NAPLPS_OUTSIDE, 3, "Outside", 0),
              "a piece that ends the run, and one behind the refusal");
    }
    check(says(naplps_check_feed(&checking, NULL, 0), NAPLPS_REFUSED, NAPLPS_OUTSIDE, 3, "Outside", 0), "no byte more");
    check(says(naplps_check_begin(&checking, 0), NAPLPS_ACCEPTED, 0, 0, "", 0), "a page in place of another");
    naplps_check_feed(&checking, BYTES(POINT));
    check(says(naplps_check_finish(&checking), NAPLPS_ACCEPTED, 0, 0, "", 1), "the other page");
    naplps_check_begin(&checking, 0);
    naplps_check_feed(&checking, BYTES(MACRO));
    check(says(naplps_check_begin(&checking, NAPLPS_BUDGET_MOST + 1), NAPLPS_NO_BUDGET, 0, 0, "", 0), "no such budget");
    check(checking.at == NULL, "a page was begun under no budget");
    naplps_check_begin(&checking, 0);
    naplps_check_feed(&checking, BYTES(MACRO));
    naplps_check_drop(&checking);
    check(says(naplps_check_finish(&checking), NAPLPS_NOT_BEGUN, 0, 0, "", 0), "a page that was given up");
}

int main(void) {
    try_empty();
    try_refused();
    try_lines();
    try_finds();
    try_budgets();
    try_begun();
    printf("%d answers\n", passed);
    return 0;
}
