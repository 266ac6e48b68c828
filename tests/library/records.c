// Answers records by each call of the library: what the module for browsers has to answer too, byte for byte.
//
// A record is three numbers of 32 bits, least byte first, and bytes: 0 for a page or 1 for lines, the budget, and how
// many bytes there are. Its answers are how many bytes they have, in 32 bits, and then structs and texts: of lines
// those of naplps_make; of a page those of each call, of naplps_make on its list, and of its three pieces. naplps_find
// is asked for one entry at least.
#include "calls.h"

struct answers {
    uint8_t *bytes;
    size_t length, size;
};

static void add(struct answers *to, const void *bytes, size_t length) {
    if (to->length + length > to->size) {
        to->size = 2 * (to->length + length);
        to->bytes = realloc(to->bytes, to->size);
        must(to->bytes != NULL, "there is no memory for the test");
    }
    if (length > 0) memcpy(to->bytes + to->length, bytes, length);
    to->length += length;
}

static void add_made(struct answers *to, const uint8_t *lines, size_t length) {
    struct naplps_made made = naplps_make(lines, length, NULL, 0);
    size_t need = made.length;
    uint8_t *page = new_room(need);
    if (need > 0) made = naplps_make(lines, length, page, need);
    add(to, &made, sizeof made);
    add(to, page, need);
    free(page);
}

// Adds the answer and the text of a call; the text is the caller's.
static uint8_t *add_text(struct answers *to, text_call *call, uint32_t budget, const uint8_t *page, size_t length,
                         size_t *need) {
    struct naplps_answer answer = call(budget, page, length, NULL, 0);
    *need = answer.length;
    uint8_t *room = new_room(*need);
    if (*need > 0) answer = call(budget, page, length, room, *need);
    add(to, &answer, sizeof answer);
    add(to, room, *need);
    return room;
}

static void add_pieces(struct answers *to, uint32_t budget, const uint8_t *page, size_t length) {
    struct naplps_checking begun = {0};
    struct naplps_answer answer = naplps_check_begin(&begun, budget);
    add(to, &answer, sizeof answer);
    size_t first = length / 3, second = length / 2;
    const size_t cuts[] = {0, first, second, length};
    for (int i = 0; i < 3; i++) {
        answer = naplps_check_feed(&begun, page + cuts[i], cuts[i + 1] - cuts[i]);
        add(to, &answer, sizeof answer);
    }
    answer = naplps_check_finish(&begun);
    add(to, &answer, sizeof answer);
    naplps_check_drop(&begun);
}

static void add_page(struct answers *to, uint32_t budget, const uint8_t *page, size_t length) {
    struct naplps_answer answer = naplps_check(budget, page, length);
    add(to, &answer, sizeof answer);
    for (int i = 0; i < TEXT_CALLS; i++) {
        size_t need;
        uint8_t *text = add_text(to, text_calls[i].call, budget, page, length, &need);
        if (i == 0) add_made(to, text, need);
        free(text);
    }
    size_t need;
    free(add_text(to, naplps_find, 1, page, length, &need));
    uint8_t plain = naplps_is_plain(page, length);
    add(to, &plain, 1);
    add_pieces(to, budget, page, length);
}

int main(void) {
    uint32_t head[3];
    struct answers answers = {0};
    while (fread(head, sizeof *head, 3, stdin) == 3) {
        uint8_t *bytes = new_room(head[2]);
        must(fread(bytes, 1, head[2], stdin) == head[2], "the input ends amid a record");
        answers.length = 0;
        if (head[0] == 1) add_made(&answers, bytes, head[2]);
        else add_page(&answers, head[1], bytes, head[2]);
        uint32_t length = (uint32_t)answers.length;
        fwrite(&length, sizeof length, 1, stdout);
        fwrite(answers.bytes, 1, answers.length, stdout);
        free(bytes);
    }
    free(answers.bytes);
    return 0;
}
