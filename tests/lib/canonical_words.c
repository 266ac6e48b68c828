/* What examples/c/words.c says of many streams: each comes as its length, four bytes, and its bytes. The answer is a
   line, the refusal or `accepted N`, and after that the N bytes that it prints. */
#define main words_main
#include "../../examples/c/words.c"
#undef main

static int answer(const uint8_t *bytes, size_t length) {
    struct page page;
    char *text = NULL;
    size_t size = 0;
    FILE *out;
    if (!read_page(&page, bytes, length, NULL))
        return printf("refused %s at %lu\n", page.reason, (unsigned long)page.place);
    out = open_memstream(&text, &size);
    if (!out) return -1;
    read_page(&page, bytes, length, out);
    fclose(out);
    printf("accepted %lu\n", (unsigned long)size);
    fwrite(text, 1, size, stdout);
    free(text);
    return 0;
}

int main(void) {
    uint8_t head[4];
    while (fread(head, 1, 4, stdin) == 4) {
        size_t length = (size_t)head[0] << 24 | (size_t)head[1] << 16 | (size_t)head[2] << 8 | head[3];
        /* (exactly as many bytes, so that a read behind them is seen) */
        uint8_t *bytes = malloc(length ? length : 1);
        if (!bytes || fread(bytes, 1, length, stdin) != length || answer(bytes, length) < 0) return 1;
        free(bytes);
    }
    return 0;
}
