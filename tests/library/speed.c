// Times each call on the pages that standard input has as requests of `naplps batch`: speed ROUNDS. A line for each
// call has its name and the microseconds of a call, the least of the rounds over all pages.
#define _POSIX_C_SOURCE 200809L
#include "calls.h"

#include <time.h>

enum { MOST = 100000, ROOM = 1 << 22 };

static struct {
    uint32_t budget;
    size_t length;
    uint8_t *bytes;
} pages[MOST];
static int count;
static uint8_t room[ROOM];

static double now(void) {
    struct timespec time;
    clock_gettime(CLOCK_PROCESS_CPUTIME_ID, &time);
    return (double)time.tv_sec * 1e6 + (double)time.tv_nsec / 1e3;
}

static void read_pages(void) {
    char line[64], command[16];
    unsigned budget;
    size_t length;
    while (count < MOST && fgets(line, sizeof line, stdin)) {
        must(sscanf(line, "%15s %u %zu\n", command, &budget, &length) == 3, "the input has no request");
        uint8_t *bytes = new_room(length);
        must(fread(bytes, 1, length, stdin) == length, "the input ends amid a request");
        pages[count].budget = budget, pages[count].length = length, pages[count++].bytes = bytes;
    }
    must(count > 0, "there is no page");
}

// The microseconds of a call, over all pages.
static double time_round(int number) {
    double start = now();
    for (int i = 0; i < count; i++) {
        struct naplps_answer answer =
            number < TEXT_CALLS ? text_calls[number].call(pages[i].budget, pages[i].bytes, pages[i].length, room, ROOM)
                                : naplps_check(pages[i].budget, pages[i].bytes, pages[i].length);
        must(answer.status == NAPLPS_ACCEPTED, "a page isn't accepted");
    }
    return (now() - start) / count;
}

int main(int argc, char **argv) {
    int rounds = argc > 1 ? atoi(argv[1]) : 5;
    read_pages();
    for (int at = 0; at <= TEXT_CALLS; at++) {
        int number = at == 0 ? TEXT_CALLS : at - 1;
        double least = time_round(number);
        for (int i = 1; i < rounds; i++) {
            double round = time_round(number);
            if (round < least) least = round;
        }
        printf("%s %.1f\n", number < TEXT_CALLS ? text_calls[number].name : "check", least);
    }
    return 0;
}
