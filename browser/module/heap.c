/* The heap of the module for browsers: what the proved code of nap_c asks for memory, in place of malloc, realloc and
   free. It is compiled for wasm64 and lowered to wasm32, so every address is below 4 GiB.

   Memory has the stack at 0, then data, then blocks, one after another without a gap. A block is a head of 16 bytes and
   its room, a multiple of 16. Two free blocks never touch, and the last block is never free. Free blocks are in a list
   for each order of magnitude, so that each call takes bounded time. All blocks are forgotten before the next call of
   the library: none can be lost, and the pieces that they leave last for one page. */
#include "module.h"

struct block {
    usize size;          /* of its room; the lowest bit says whether it is free */
    struct block *below; /* the block that ends where this one begins, or null */
};
/* The room of a free block begins with its neighbours in its list. */
struct links {
    struct block *next, *previous;
};
enum { HEAD = sizeof(struct block), LEAST = sizeof(struct links), CLASSES = 33 };
static_assert(HEAD == 16 && LEAST == 16, "rooms are aligned to 16");

/* No block ends in the last megabyte of the 4 GiB: a stack that runs below 0 gets there, and traps. */
#define MOST (0x100000000ul - 0x100000ul)
extern u8 __heap_base;
static usize limit = MOST, top, refused;
static struct block *last, *lists[CLASSES];
static usize filled; /* the bit of each list that isn't empty */

static usize size_of(struct block *it) { return it->size & ~(usize)1; }
static bool is_free(struct block *it) { return it->size & 1; }
static u8 *room_of(struct block *it) { return (u8 *)it + HEAD; }
static usize end_of(struct block *it) { return (usize)room_of(it) + size_of(it); }
static struct block *block_of(void *room) { return (struct block *)((u8 *)room - HEAD); }
static struct links *links_of(struct block *it) { return (struct links *)room_of(it); }
static u32 magnitude(usize size) { return 63 - (u32)__builtin_clzl(size); }

/* The block above, which there is unless a block is the last. */
static struct block *above(struct block *it) { return (struct block *)end_of(it); }

/* Whether memory reaches to an end, once it has grown. What a refused growth answers isn't the same after the lowering,
   so the size is compared. */
static bool reaches(usize end) {
    usize have = __builtin_wasm_memory_size(0) << 16;
    if (end > limit) {
        if (!refused) refused = end;
        return false;
    }
    if (end <= have) return true;
    __builtin_wasm_memory_grow(0, (end - have + 0xFFFF) >> 16);
    return end <= __builtin_wasm_memory_size(0) << 16;
}

static void enlist(struct block *it) {
    u32 class = magnitude(size_of(it));
    *links_of(it) = (struct links){lists[class], 0};
    if (lists[class]) links_of(lists[class])->previous = it;
    lists[class] = it;
    filled |= (usize)1 << class;
    it->size |= 1;
}

static void delist(struct block *it) {
    u32 class = magnitude(size_of(it));
    struct links links = *links_of(it);
    if (links.next) links_of(links.next)->previous = links.previous;
    if (links.previous) links_of(links.previous)->next = links.next;
    else lists[class] = links.next;
    if (!lists[class]) filled &= ~((usize)1 << class);
    it->size &= ~(usize)1;
}

/* Sets the size of a block that isn't free; the block above is told, or the end of all moves. */
static void resize(struct block *it, usize size) {
    it->size = size;
    if (it == last) top = end_of(it);
    else above(it)->below = it;
}

/* Gives a block back, joined with the free ones beside it. */
static void release(struct block *it) {
    if (it != last && is_free(above(it))) {
        struct block *other = above(it);
        delist(other);
        resize(it, size_of(it) + HEAD + size_of(other));
    }
    if (it->below && is_free(it->below)) {
        struct block *other = it->below;
        delist(other);
        if (it == last) last = other;
        resize(other, size_of(other) + HEAD + size_of(it));
        it = other;
    }
    if (it == last) {
        last = it->below;
        top = (usize)it;
    } else {
        enlist(it);
    }
}

/* Cuts a block to a size; what it has beyond that is free. */
static void cut(struct block *it, usize size) {
    usize rest = size_of(it) - size;
    if (rest < HEAD + LEAST) return;
    bool was_last = it == last;
    struct block *other = (struct block *)(room_of(it) + size);
    other->below = it;
    it->size = size;
    if (was_last) last = other;
    resize(other, rest - HEAD);
    release(other);
}

/* A free block of at least a size: the first of its own list if that is large enough, else one of a greater list. */
static struct block *find(usize size) {
    u32 class = magnitude(size);
    struct block *it = lists[class];
    if (it && size_of(it) >= size) return it;
    usize greater = filled & ~(((usize)2 << class) - 1);
    return greater ? lists[__builtin_ctzl(greater)] : 0;
}

/* The size of the room that has so many bytes; more than any limit where there is none. */
static usize rounded(usize bytes) {
    if (bytes > MOST) return MOST + 16;
    return bytes <= LEAST ? LEAST : (bytes + 15) & ~(usize)15;
}

static u8 *take_room(usize bytes) {
    usize size = rounded(bytes);
    struct block *it = find(size);
    if (it) {
        delist(it);
        cut(it, size);
        return room_of(it);
    }
    if (!top) top = ((usize)&__heap_base + 15) & ~(usize)15;
    if (!reaches(top + HEAD + size)) return 0;
    it = (struct block *)top;
    *it = (struct block){size, last};
    last = it;
    top = end_of(it);
    return room_of(it);
}

/* Makes a block larger where it is, if it can be. */
static bool widen(struct block *it, usize size) {
    usize have = size_of(it);
    if (it != last && is_free(above(it)) && have + HEAD + size_of(above(it)) >= size) {
        struct block *other = above(it);
        delist(other);
        resize(it, have + HEAD + size_of(other));
        cut(it, size);
        return true;
    }
    if (it != last || !reaches((usize)room_of(it) + size)) return false;
    resize(it, size);
    return true;
}

/* What the proved code calls, as the toolchain's C code answers it: a flag, and a pointer that is never null. */
struct taken {
    usize is_there;
    void *room;
};
static u8 nothing;
static struct taken taken(void *room) { return (struct taken){room != 0, room ? room : &nothing}; }

struct taken rattle_alloc(usize bytes, usize align) {
    (void)align;
    return taken(take_room(bytes));
}

void rattle_dealloc(void *room) {
    if (room) release(block_of(room));
}

struct taken rattle_realloc(void *room, usize kept, usize bytes, usize align) {
    (void)align;
    if (!room) return taken(take_room(bytes));
    struct block *it = block_of(room);
    usize size = rounded(bytes);
    if (size <= size_of(it) || widen(it, size)) return taken(room);
    u8 *other = take_room(bytes);
    if (!other) return taken(0);
    __builtin_memcpy(other, room, kept < size_of(it) ? kept : size_of(it));
    release(it);
    return taken(other);
}

/* For the host: a room of so many bytes, or 0. */
u32 take(u32 bytes) { return (u32)(usize)take_room(bytes); }

void forget_blocks(void) {
    top = refused = filled = 0;
    last = 0;
    __builtin_memset(lists, 0, sizeof lists);
}

/* Has no block end above an address, from now on. */
void limit_blocks(u32 address) { limit = address < MOST ? address : MOST; }

/* Where the last block ends, or 0; and where the first block that the limit refused would have ended, or 0. */
u32 end_of_blocks(void) { return (u32)top; }
u32 end_refused(void) { return refused > MOST ? (u32)MOST : (u32)refused; }
