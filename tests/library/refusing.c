// The library with an allocator that refuses some of its calls, for dev/fuzz_lines.py.
#include "naplps.h"
#include "refusing.h"

// Makes lines into a page, with these calls of the allocator refused; tells how many calls there were, and how many
// blocks were left.
struct naplps_made make_refusing(const uint8_t *lines, size_t length, uint8_t *room, size_t size, long from, long to,
                                 long told[2]);

struct naplps_made make_refusing(const uint8_t *lines, size_t length, uint8_t *room, size_t size, long from, long to,
                                 long told[2]) {
    live = calls = 0, first = from, last = to;
    struct naplps_made made = naplps_make(lines, length, room, size);
    told[0] = calls, told[1] = live;
    return made;
}
