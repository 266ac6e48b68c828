// Eight threads call at once, on the same pages, each with its own room; all answers must be those of one thread.
#include "calls.h"

#include <pthread.h>

enum { THREADS = 8, ROUNDS = 4000, PAGES = 6, ROOM = 4096, CALLS = TEXT_CALLS + 3 };

static const char *const pages[PAGES] = {
    "\x0E\x26\x52\x40\x40",
    "\x0E\x21\x44\x37\x52\x40\x41\x49\x42\x4B\x53",
    "Hello, world\x0D\x0A",
    "\x1B\x40\x21"
    "abc\x1B\x45\x1B\x2B\x7A\x1D\x21\x1D\x21",
    "\x0E\x26\x52\x40\x40\x1B",
    "\x0E\x26\x52\x40\x40\x18",
};
static struct naplps_answer wanted[PAGES][CALLS];
static uint8_t texts[PAGES][CALLS][ROOM];

static struct naplps_answer call(int number, int page, uint8_t *room) {
    const uint8_t *bytes = (const uint8_t *)pages[page];
    size_t length = strlen(pages[page]);
    if (number == TEXT_CALLS) return naplps_check(1000, bytes, length);
    if (number == TEXT_CALLS + 1) return check_pieces(1000, bytes, length, 3);
    if (number > TEXT_CALLS) return naplps_find(1, bytes, length, room, ROOM);
    return text_calls[number].call(1000, bytes, length, room, ROOM);
}

static void *work(void *first) {
    uint8_t room[ROOM];
    long wrong = 0;
    for (int round = 0; round < ROUNDS; round++) {
        int page = (round + (int)(intptr_t)first) % PAGES, number = round / PAGES % CALLS;
        struct naplps_answer answer = call(number, page, room);
        int has_text = number < TEXT_CALLS || number == CALLS - 1;
        wrong += !are_equal(answer, wanted[page][number]) ||
                 (has_text && memcmp(room, texts[page][number], answer.length) != 0);
    }
    return (void *)(intptr_t)wrong;
}

int main(void) {
    pthread_t threads[THREADS];
    long wrong = 0;
    for (int page = 0; page < PAGES; page++) {
        for (int number = 0; number < CALLS; number++) wanted[page][number] = call(number, page, texts[page][number]);
    }
    for (intptr_t i = 0; i < THREADS; i++) must(pthread_create(&threads[i], NULL, work, (void *)i) == 0, "no thread");
    for (int i = 0; i < THREADS; i++) {
        void *found;
        pthread_join(threads[i], &found);
        wrong += (long)(intptr_t)found;
    }
    printf("%d calls by %d threads, %ld wrong\n", THREADS * ROUNDS, THREADS, wrong);
    return wrong != 0;
}
