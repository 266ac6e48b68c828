// What the tests of the library share: the calls that give a text, by name, and rooms that show a stray write.
#ifndef CALLS_H
#define CALLS_H
#include "naplps.h"

#include <stdio.h>
#include <stdlib.h>
#include <string.h>

typedef struct naplps_answer text_call(uint32_t, const uint8_t *, size_t, uint8_t *, size_t);

static const struct {
    const char *name;
    text_call *call;
} text_calls[] = {
    {"list", naplps_list},
    {"canon", naplps_canon},
    {"form1", naplps_canon_form1},
    {"places", naplps_places},
};
enum { TEXT_CALLS = sizeof text_calls / sizeof text_calls[0] };

// What fills a room before a call.
enum { UNTOUCHED = 0xA5 };

static inline void stop(const char *why) {
    fflush(stdout);
    fprintf(stderr, "wrong: %s\n", why);
    exit(1);
}

static inline void must(int right, const char *what) {
    if (!right) stop(what);
}

// A room of exactly this number of bytes: null for none.
static inline uint8_t *new_room(size_t size) {
    if (size == 0) return NULL;
    uint8_t *room = malloc(size);
    must(room != NULL, "there is no memory for the test");
    memset(room, UNTOUCHED, size);
    return room;
}

static inline int is_untouched(const uint8_t *room, size_t from, size_t to) {
    for (size_t i = from; i < to; i++) {
        if (room[i] != UNTOUCHED) return 0;
    }
    return 1;
}

// Equal in all but the status.
static inline int tell_the_same(struct naplps_answer a, struct naplps_answer b) {
    return a.number == b.number && a.place == b.place && a.length == b.length &&
           memcmp(a.name, b.name, sizeof a.name) == 0;
}

static inline int are_equal(struct naplps_answer a, struct naplps_answer b) {
    return a.status == b.status && tell_the_same(a, b);
}

// A page by pieces of this size, and the rest; a refusal has to stay. Where it can't be begun, why.
static inline struct naplps_answer check_pieces(uint32_t budget, const uint8_t *page, size_t length, size_t size) {
    struct naplps_checking checking = {0};
    struct naplps_answer answer = naplps_check_begin(&checking, budget);
    if (answer.status != NAPLPS_ACCEPTED) return answer;
    for (size_t at = 0; at < length; at += size) {
        struct naplps_answer now = naplps_check_feed(&checking, page + at, size < length - at ? size : length - at);
        must(answer.status == NAPLPS_ACCEPTED || are_equal(answer, now), "a refusal has changed");
        must(now.length == 0, "a piece has a length");
        answer = now;
    }
    struct naplps_answer whole = naplps_check_finish(&checking);
    must(answer.status == NAPLPS_ACCEPTED || are_equal(answer, whole), "the refusal of a piece isn't that of the page");
    must(checking.at == NULL, "a page was left");
    return whole;
}
#endif
