/* The calls of naplps.h for the host of the module: numbers and addresses have 32 bits, and the answer of a call stands
   in one place until the next. Only one call runs at a time.

   The proved code is compiled for x86-64, where a struct of more than 16 bytes is returned through a pointer that comes
   first, and comes back; so it is declared here as it is in its LLVM code. The linker compares the types. */
#include "module.h"

struct answer {
    u32 status, number;
    usize place, length;
    char name[32];
};
struct made {
    u32 status, fault;
    usize line, column, opening, length, count;
};
struct checking {
    void *at;
};
static_assert(sizeof(struct answer) == 56 && sizeof(struct made) == 48, "as naplps.h says");

void *naplps_check(struct answer *into, u32 budget, const u8 *page, usize length);
void *naplps_list(struct answer *into, u32 budget, const u8 *page, usize length, u8 *room, usize size);
void *naplps_canon(struct answer *into, u32 budget, const u8 *page, usize length, u8 *room, usize size);
void *naplps_canon_form1(struct answer *into, u32 budget, const u8 *page, usize length, u8 *room, usize size);
void *naplps_places(struct answer *into, u32 budget, const u8 *page, usize length, u8 *room, usize size);
void *naplps_find(struct answer *into, u32 least, const u8 *bytes, usize length, u8 *room, usize size);
void *naplps_make(struct made *into, const u8 *lines, usize length, u8 *room, usize size);
bool naplps_is_plain(const u8 *page, usize length);
void *naplps_check_begin(struct answer *into, struct checking *page, u32 budget);
void *naplps_check_feed(struct answer *into, struct checking *page, const u8 *piece, usize length);
void *naplps_check_finish(struct answer *into, struct checking *page);
void naplps_check_drop(struct checking *page);

static union {
    struct answer page;
    struct made lines;
} answer;
static struct checking begun;

static u8 *at(u32 address) { return (u8 *)(usize)address; }

/* Where the answers are. */
u32 place_of_answer(void) { return (u32)(usize)&answer; }

void check(u32 budget, u32 page, u32 length) {
    naplps_check(&answer.page, budget, at(page), length);
}
void list(u32 budget, u32 page, u32 length, u32 room, u32 size) {
    naplps_list(&answer.page, budget, at(page), length, at(room), size);
}
void canon(u32 budget, u32 page, u32 length, u32 room, u32 size) {
    naplps_canon(&answer.page, budget, at(page), length, at(room), size);
}
void canon_form1(u32 budget, u32 page, u32 length, u32 room, u32 size) {
    naplps_canon_form1(&answer.page, budget, at(page), length, at(room), size);
}
void places(u32 budget, u32 page, u32 length, u32 room, u32 size) {
    naplps_places(&answer.page, budget, at(page), length, at(room), size);
}
void find(u32 least, u32 bytes, u32 length, u32 room, u32 size) {
    naplps_find(&answer.page, least, at(bytes), length, at(room), size);
}
void make(u32 lines, u32 length, u32 room, u32 size) {
    naplps_make(&answer.lines, at(lines), length, at(room), size);
}
u32 is_plain(u32 page, u32 length) { return naplps_is_plain(at(page), length); }

/* Forgets all rooms and blocks, and a page in pieces with them. The host calls it before each call. */
void forget(void) {
    begun.at = 0;
    forget_blocks();
}

/* One page in pieces. */
void check_begin(u32 budget) {
    naplps_check_begin(&answer.page, &begun, budget);
}
void check_feed(u32 piece, u32 length) {
    naplps_check_feed(&answer.page, &begun, at(piece), length);
}
void check_finish(void) { naplps_check_finish(&answer.page, &begun); }
void check_drop(void) { naplps_check_drop(&begun); }
