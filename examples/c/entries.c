/* Prints the entries of each page that is named, or why it is refused:

       cc -o entries entries.c $(pkg-config --cflags --libs naplps)
       ./entries page.nap */
#include <naplps.h>
#include <stdio.h>
#include <stdlib.h>

/* All bytes of a file, in memory that the caller frees; null where they can't be read. */
static uint8_t *read_file(const char *name, size_t *length) {
    FILE *file = fopen(name, "rb");
    uint8_t *bytes = NULL, *more;
    size_t size = 0, count = 0;
    if (!file) return NULL;
    do {
        *length = size += count;
        more = realloc(bytes, size + 65536);
        if (!more) break;
        bytes = more;
    } while ((count = fread(bytes + size, 1, 65536, file)) > 0);
    if (!more || ferror(file)) {
        free(bytes);
        bytes = NULL;
    }
    fclose(file);
    return bytes;
}

/* The lines of a page's entries, in memory that the caller frees; null where there is none for them. */
static uint8_t *lines_of(const uint8_t *page, size_t length, struct naplps_answer *answer) {
    size_t size = 65536;
    for (;;) {
        uint8_t *room = malloc(size);
        if (!room) return NULL;
        *answer = naplps_list(NAPLPS_BUDGET_USUAL, page, length, room, size);
        if (answer->status != NAPLPS_SMALL_ROOM) return room;
        free(room);
        size = answer->length;
    }
}

/* Prints the entries of a page, and answers whether that went well. */
static int print_page(const char *name) {
    struct naplps_answer answer;
    size_t length;
    uint8_t *page = read_file(name, &length);
    uint8_t *lines = page ? lines_of(page, length, &answer) : NULL;
    int accepted = lines && answer.status == NAPLPS_ACCEPTED;
    if (accepted) {
        fwrite(lines, 1, answer.length, stdout);
    } else if (lines) {
        fprintf(stderr, "%s: refused %u %s at %llu\n", name, answer.number, answer.name,
                (unsigned long long)answer.place);
    } else {
        fprintf(stderr, "%s: %s\n", name, page ? "no memory for its lines" : "it can't be read");
    }
    free(lines);
    free(page);
    return accepted;
}

int main(int count, char **names) {
    int all = 1;
    for (int i = 1; i < count; i++) {
        if (!print_page(names[i])) all = 0;
    }
    if (fflush(stdout) != 0) {
        perror("entries");
        return 1;
    }
    return all ? 0 : 1;
}
