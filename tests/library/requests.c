// Answers requests as `naplps batch` does, by calls of the library: the same bytes on standard output, whatever the
// request. It takes two commands more: form1, and plain, whose line is `plain` or `not plain`. Each text is asked for
// with rooms of no byte, of one too few, of exactly as many, and of more; and what must hold of all of these is looked
// at.
#include "calls.h"

struct text {
    struct naplps_answer answer;
    uint8_t *bytes;
};

// A room that is too small: nothing is written, and the answer tells as much as the one with the text.
static void try_small(text_call *call, uint32_t budget, const uint8_t *page, size_t length, struct naplps_answer whole,
                      size_t size) {
    uint8_t *room = new_room(size);
    struct naplps_answer answer = call(budget, page, length, room, size);
    must(answer.status == NAPLPS_SMALL_ROOM, "a small room has another status");
    must(tell_the_same(answer, whole), "a small room has another answer");
    must(is_untouched(room, 0, size), "a small room was written");
    free(room);
}

// A room that is larger than the text: nothing after it is written.
static void try_large(text_call *call, uint32_t budget, const uint8_t *page, size_t length, struct text text) {
    size_t need = text.answer.length, size = need + 1 + length % 64;
    uint8_t *room = new_room(size);
    struct naplps_answer answer = call(budget, page, length, room, size);
    must(are_equal(answer, text.answer), "a large room has another answer");
    must(need == 0 || memcmp(room, text.bytes, need) == 0, "a large room has another text");
    must(is_untouched(room, need, size), "a byte behind the text was written");
    free(room);
}

// The text that a call gives of a page.
static struct text ask(text_call *call, uint32_t budget, const uint8_t *page, size_t length) {
    struct text text = {call(budget, page, length, NULL, 0), NULL};
    size_t need = text.answer.length;
    if (need > 0) {
        must(text.answer.status == NAPLPS_SMALL_ROOM, "no room has another status");
        text.bytes = new_room(need);
        text.answer = call(budget, page, length, text.bytes, need);
        try_small(call, budget, page, length, text.answer, need - 1);
        try_small(call, budget, page, length, text.answer, 0);
    }
    must(text.answer.length == need && text.answer.status <= NAPLPS_REFUSED, "a room that is exact has another answer");
    try_large(call, budget, page, length, text);
    return text;
}

static void print_line(struct naplps_answer answer, uint64_t entries) {
    if (answer.status == NAPLPS_REFUSED) {
        printf("refused %u %s at %llu\n", answer.number, answer.name, (unsigned long long)answer.place);
    } else {
        printf("accepted %llu entries\n", (unsigned long long)entries);
    }
}

// Canonical text is plain and its own canonical stream, and reads back with the same number of entries, in either form.
static void try_canonical(struct text text, uint64_t entries) {
    if (text.answer.status != NAPLPS_ACCEPTED) return;
    must(naplps_is_plain(text.bytes, text.answer.length), "canonical text isn't plain");
    struct naplps_answer again = naplps_check(0, text.bytes, text.answer.length);
    must(again.status == NAPLPS_ACCEPTED && again.length == entries, "canonical text has other entries");
}

static void try_form1(struct text text, uint32_t budget, const uint8_t *page, size_t length) {
    if (text.answer.status != NAPLPS_ACCEPTED) return;
    struct text canon = ask(naplps_canon, budget, page, length);
    struct text again = ask(naplps_canon, 0, text.bytes, text.answer.length);
    must(are_equal(canon.answer, again.answer), "text in form 1 has another canonical stream");
    must(memcmp(canon.bytes, again.bytes, canon.answer.length) == 0, "text in form 1 has another canonical stream");
    free(canon.bytes);
    free(again.bytes);
}

static void answer_text(text_call *call, uint32_t budget, const uint8_t *page, size_t length) {
    struct naplps_answer count = naplps_check(budget, page, length);
    struct text text = ask(call, budget, page, length);
    must(text.answer.status == count.status && text.answer.number == count.number, "two calls differ");
    must(text.answer.place == count.place, "two calls differ in the place");
    if (call == naplps_canon || call == naplps_canon_form1) try_canonical(text, count.length);
    if (call == naplps_canon_form1) try_form1(text, budget, page, length);
    print_line(text.answer, count.length);
    printf("%llu\n", (unsigned long long)text.answer.length);
    if (text.bytes) fwrite(text.bytes, 1, text.answer.length, stdout);
    free(text.bytes);
}

// A page in pieces has the answer of the whole, whatever their size.
static void try_pieces(uint32_t budget, const uint8_t *page, size_t length, struct naplps_answer whole) {
    for (size_t size = 1; size <= length + 1; size += 1 + size / 16) {
        must(are_equal(check_pieces(budget, page, length, size), whole), "pieces have another answer");
    }
}

static int make_the_same(struct naplps_made a, struct naplps_made b) {
    return a.fault == b.fault && a.line == b.line && a.column == b.column && a.opening == b.opening &&
           a.length == b.length && a.count == b.count;
}

static void print_made(struct naplps_made made) {
    unsigned long long line = made.line;
    if (made.fault == NAPLPS_NO_LINE) {
        printf("line %llu: no line of a list, at column %llu\n", line, (unsigned long long)made.column);
    } else if (made.fault == NAPLPS_MISFIT) {
        printf("line %llu: can't come here\n", line);
    } else if (made.fault == NAPLPS_UNCLOSED) {
        printf("line %llu: the definition of line %llu isn't ended\n", line, (unsigned long long)made.opening);
    } else {
        must(made.fault == 0, "there is no memory for the test");
        printf("accepted %llu entries\n", (unsigned long long)made.count);
    }
}

// The lines of a page that was made are those that it was made of, and it is its own canonical stream.
static void try_made(const uint8_t *lines, size_t length, const uint8_t *page, size_t size) {
    struct text again = ask(naplps_list, 0, page, size), canon = ask(naplps_canon, 0, page, size);
    must(again.answer.length == length && (length == 0 || memcmp(again.bytes, lines, length) == 0), "other lines");
    must(canon.answer.length == size && memcmp(canon.bytes, page, size) == 0, "a made page isn't canonical");
    free(again.bytes);
    free(canon.bytes);
}

static void answer_lines(const uint8_t *lines, size_t length) {
    struct naplps_made made = naplps_make(lines, length, NULL, 0);
    size_t need = made.length;
    uint8_t *page = new_room(need + 1);
    if (need > 0) {
        must(made.status == NAPLPS_SMALL_ROOM, "no room has another status");
        struct naplps_made small = naplps_make(lines, length, page, need - 1);
        must(small.status == NAPLPS_SMALL_ROOM && make_the_same(small, made), "a small room has another answer");
        must(is_untouched(page, 0, need + 1), "a small room was written");
        struct naplps_made large = naplps_make(lines, length, page, need + 1);
        must(large.status == NAPLPS_ACCEPTED && make_the_same(large, made), "a large room has another answer");
        try_made(lines, length, page, need);
    }
    must(page[need] == UNTOUCHED, "a byte behind the page was written");
    print_made(made);
    printf("%zu\n", need);
    fwrite(page, 1, need, stdout);
    free(page);
}

static void answer_finds(uint32_t least, const uint8_t *bytes, size_t length) {
    struct text text = ask(naplps_find, least, bytes, length);
    unsigned long long count = 0, size = text.answer.length;
    for (size_t i = 0; i + 1 < size; i++) count += text.bytes[i] == '\n';
    must(text.answer.status == NAPLPS_ACCEPTED && text.answer.place <= length, "finds are refused");
    printf("found %llu pages\n%llu\n", count, size);
    fwrite(text.bytes, 1, size, stdout);
    free(text.bytes);
}

static void answer_request(const char *command, uint32_t budget, const uint8_t *page, size_t length) {
    for (int i = 0; i < TEXT_CALLS; i++) {
        if (strcmp(command, text_calls[i].name) == 0) {
            answer_text(text_calls[i].call, budget, page, length);
            return;
        }
    }
    if (strcmp(command, "make") == 0) {
        answer_lines(page, length);
        return;
    }
    if (strcmp(command, "find") == 0) {
        answer_finds(budget, page, length);
        return;
    }
    if (strcmp(command, "check") == 0) {
        struct naplps_answer answer = naplps_check(budget, page, length);
        try_pieces(budget, page, length, answer);
        print_line(answer, answer.length);
    } else if (strcmp(command, "plain") == 0) {
        puts(naplps_is_plain(page, length) ? "plain" : "not plain");
    } else {
        stop("no such command");
    }
    puts("0");
}

int main(void) {
    char line[64], command[16];
    unsigned budget;
    size_t length;
    while (fgets(line, sizeof line, stdin)) {
        must(sscanf(line, "%15s %u %zu\n", command, &budget, &length) == 3, "the input has no request");
        uint8_t *page = new_room(length);
        must(fread(page, 1, length, stdin) == length, "the input ends amid a request");
        answer_request(command, budget, page, length);
        fflush(stdout);
        free(page);
    }
    return 0;
}
