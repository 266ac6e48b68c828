/* The calls of naplps.h over the C that wasm2c makes of naplps.wasm, for any C compiler: each call has an instance of
   the module of its own, and copies the page into its memory and the text out of it. So threads may call at the same
   time, as with the library.

   Other than with the library, naplps_is_plain takes memory: where there is none, the process is aborted, and so it is
   where the module traps, which is a fault of what compiled it. */
#include "naplps.h"

#include "naplps_module.h"
#include "wasm-rt-impl.h"

#include <stdlib.h>
#include <string.h>

#define MOST 0xFFF00000u

static Z_naplps_instance_t *begin(void) {
    static _Atomic int ready;
    if (!ready) {
        wasm_rt_init();
        Z_naplps_init_module();
        ready = 1;
    }
    Z_naplps_instance_t *it = calloc(1, sizeof *it);
    if (it) Z_naplps_instantiate(it);
    return it;
}

static void end(Z_naplps_instance_t *it) {
    if (!it) return;
    Z_naplps_free(it);
    free(it);
}

static uint8_t *memory(Z_naplps_instance_t *it) { return Z_naplpsZ_memory(it)->data; }

/* A number of the answer, least byte first. */
static uint64_t number(Z_naplps_instance_t *it, uint32_t offset, int bytes) {
    const uint8_t *from = memory(it) + Z_naplpsZ_place_of_answer(it) + offset;
    uint64_t value = 0;
    for (int i = bytes; i-- > 0;) value = value << 8 | from[i];
    return value;
}

/* Where bytes stand in the memory of an instance, once they are copied there; 0 where there is no room for them. */
static uint32_t put(Z_naplps_instance_t *it, const uint8_t *bytes, size_t length) {
    if (!it || length > MOST) return 0;
    uint32_t at = Z_naplpsZ_take(it, (uint32_t)length);
    if (at && length) memcpy(memory(it) + at, bytes, length);
    return at;
}

/* A room for a text; 0 where there is no memory for it. */
static uint32_t take(Z_naplps_instance_t *it, size_t size) {
    return size > MOST ? 0 : Z_naplpsZ_take(it, (uint32_t)size);
}

static struct naplps_answer lacks_memory(void) {
    struct naplps_answer answer = {NAPLPS_REFUSED, NAPLPS_MEMORY, 0, 0, "Memory"};
    return answer;
}

static struct naplps_answer answer_of(Z_naplps_instance_t *it) {
    struct naplps_answer answer = {(uint32_t)number(it, 0, 4), (uint32_t)number(it, 4, 4), number(it, 8, 8),
                                   number(it, 16, 8), ""};
    memcpy(answer.name, memory(it) + Z_naplpsZ_place_of_answer(it) + 24, sizeof answer.name);
    return answer;
}

struct naplps_answer naplps_check(uint32_t budget, const uint8_t *page, size_t length) {
    Z_naplps_instance_t *it = begin();
    uint32_t at = put(it, page, length);
    struct naplps_answer answer = lacks_memory();
    if (at) {
        Z_naplpsZ_check(it, budget, at, (uint32_t)length);
        answer = answer_of(it);
    }
    end(it);
    return answer;
}

typedef void text_call(Z_naplps_instance_t *, uint32_t, uint32_t, uint32_t, uint32_t, uint32_t);

static struct naplps_answer text(text_call *call, uint32_t budget, const uint8_t *page, size_t length, uint8_t *room,
                                 size_t size) {
    Z_naplps_instance_t *it = begin();
    uint32_t at = put(it, page, length), to = at ? take(it, size) : 0;
    struct naplps_answer answer = lacks_memory();
    if (to) {
        call(it, budget, at, (uint32_t)length, to, (uint32_t)size);
        answer = answer_of(it);
        if (answer.status != NAPLPS_SMALL_ROOM && answer.length) memcpy(room, memory(it) + to, answer.length);
    }
    end(it);
    return answer;
}

struct naplps_answer naplps_list(uint32_t budget, const uint8_t *page, size_t length, uint8_t *room, size_t size) {
    return text(Z_naplpsZ_list, budget, page, length, room, size);
}
struct naplps_answer naplps_canon(uint32_t budget, const uint8_t *page, size_t length, uint8_t *room, size_t size) {
    return text(Z_naplpsZ_canon, budget, page, length, room, size);
}
struct naplps_answer naplps_canon_form1(uint32_t budget, const uint8_t *page, size_t length, uint8_t *room,
                                        size_t size) {
    return text(Z_naplpsZ_canon_form1, budget, page, length, room, size);
}
struct naplps_answer naplps_places(uint32_t budget, const uint8_t *page, size_t length, uint8_t *room, size_t size) {
    return text(Z_naplpsZ_places, budget, page, length, room, size);
}
struct naplps_answer naplps_find(uint32_t least, const uint8_t *bytes, size_t length, uint8_t *room, size_t size) {
    return text(Z_naplpsZ_find, least, bytes, length, room, size);
}

struct naplps_made naplps_make(const uint8_t *lines, size_t length, uint8_t *room, size_t size) {
    Z_naplps_instance_t *it = begin();
    uint32_t at = put(it, lines, length), to = at ? take(it, size) : 0;
    struct naplps_made made = {NAPLPS_REFUSED, NAPLPS_NO_MEMORY, 0, 0, 0, 0, 0};
    if (to) {
        Z_naplpsZ_make(it, at, (uint32_t)length, to, (uint32_t)size);
        struct naplps_made told = {(uint32_t)number(it, 0, 4), (uint32_t)number(it, 4, 4), number(it, 8, 8),
                                   number(it, 16, 8), number(it, 24, 8), number(it, 32, 8), number(it, 40, 8)};
        made = told;
        if (made.status == NAPLPS_ACCEPTED && made.length) memcpy(room, memory(it) + to, made.length);
    }
    end(it);
    return made;
}

bool naplps_is_plain(const uint8_t *page, size_t length) {
    Z_naplps_instance_t *it = begin();
    uint32_t at = put(it, page, length);
    if (!at) abort();
    bool plain = Z_naplpsZ_is_plain(it, at, (uint32_t)length) != 0;
    end(it);
    return plain;
}

/* A page in pieces has an instance, with a room for a part of a piece. */
struct pieces {
    Z_naplps_instance_t *it;
    uint32_t part;
};
enum { PART = 1 << 16 };

struct naplps_answer naplps_check_begin(struct naplps_checking *page, uint32_t budget) {
    naplps_check_drop(page);
    struct pieces *begun = calloc(1, sizeof *begun);
    if (!begun) return lacks_memory();
    struct naplps_answer answer = lacks_memory();
    begun->it = begin();
    begun->part = begun->it ? Z_naplpsZ_take(begun->it, PART) : 0;
    if (begun->part) {
        Z_naplpsZ_check_begin(begun->it, budget);
        answer = answer_of(begun->it);
    }
    page->at = begun;
    if (answer.status != NAPLPS_ACCEPTED) naplps_check_drop(page);
    return answer;
}

static struct naplps_answer not_begun(void) {
    struct naplps_answer answer = {NAPLPS_NOT_BEGUN, 0, 0, 0, ""};
    return answer;
}

struct naplps_answer naplps_check_feed(struct naplps_checking *page, const uint8_t *piece, size_t length) {
    struct pieces *begun = page->at;
    if (!begun) return not_begun();
    do {
        uint32_t part = length < PART ? (uint32_t)length : PART;
        if (part) memcpy(memory(begun->it) + begun->part, piece, part);
        Z_naplpsZ_check_feed(begun->it, begun->part, part);
        piece = part ? piece + part : piece;
        length -= part;
    } while (length > 0);
    return answer_of(begun->it);
}

struct naplps_answer naplps_check_finish(struct naplps_checking *page) {
    struct pieces *begun = page->at;
    if (!begun) return not_begun();
    Z_naplpsZ_check_finish(begun->it);
    struct naplps_answer answer = answer_of(begun->it);
    naplps_check_drop(page);
    return answer;
}

void naplps_check_drop(struct naplps_checking *page) {
    struct pieces *begun = page->at;
    if (!begun) return;
    end(begun->it);
    free(begun);
    page->at = NULL;
}
