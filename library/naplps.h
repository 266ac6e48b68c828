/* naplps.h: reads pages of NAPLPS (ANSI X3.110-1983, CSA T500-1983) that are in memory.

   Each call but naplps_make and naplps_find is given a page and a budget. Most are given a room too, into which they
   put a text:

   page, length  the bytes of the page, which are only read, and mustn't change before the call returns. Any byte may
                 stand in it, NUL too.
   budget        how many bytes of macro bodies the page may be charged with, each time one is used, from 0 to
                 NAPLPS_BUDGET_MOST. A page that needs more is refused with NAPLPS_BUDGET. The commands of the program
                 naplps use NAPLPS_BUDGET_USUAL where none is named.
   room, size    where the text goes, and how many bytes there are. The text isn't ended by a NUL, and no byte behind it
                 is changed. The room must not overlap the page.

   Lengths, sizes and places are in bytes. A page may be empty. Where a length or a size is 0, its pointer isn't used
   and may be null; else it must point to so many bytes.

   The answer is a struct that owns nothing. Where the room is too small, nothing is written, and the answer says how
   many bytes the text has. A call with the size 0 only asks for that, but takes as much time and memory as another,
   since the text is made in memory first; a text of 0 bytes fits any room. So it is faster to begin with a room that is
   mostly large enough, and to call again where it wasn't.

   The library has no state, opens no file and prints nothing. So threads may call at the same time, with rooms of their
   own, also on one page. Don't call from a signal handler, nor in the forked child of a process that has threads.

   A call takes its memory from malloc and realloc, and gives it back with free before it returns. Only a page that comes
   in pieces keeps some between two calls, in struct naplps_checking. Where there is no memory, the answer is the
   refusal NAPLPS_MEMORY. */
#ifndef NAPLPS_H
#define NAPLPS_H

#include <stdbool.h>
#include <stddef.h>
#include <stdint.h>

#ifdef __cplusplus
extern "C" {
#endif

/* The budget that is usual, and the greatest one. */
#define NAPLPS_BUDGET_USUAL 1048576u
#define NAPLPS_BUDGET_MOST 67108864u

/* What comes of a page. */
enum naplps_status {
    NAPLPS_ACCEPTED = 0,
    NAPLPS_REFUSED = 1,
    NAPLPS_SMALL_ROOM = 2, /* the room is too small for the text, and nothing was written */
    NAPLPS_NO_BUDGET = 3,  /* the budget is greater than NAPLPS_BUDGET_MOST, and the page wasn't read */
    NAPLPS_NOT_BEGUN = 4   /* no page is begun that comes in pieces, and nothing was read */
};

/* Why a page is refused. PROFILE.md, among the documents of naplps, says when each is answered, and at which byte. */
enum naplps_refusal {
    NAPLPS_EIGHTH_BIT = 1,
    NAPLPS_BAD_ESCAPE = 2,
    NAPLPS_SHIFT_ALONE = 3,
    NAPLPS_SHIFTED_CODE = 4,
    NAPLPS_BAD_ARGUMENT = 5,
    NAPLPS_LEFT_OUT = 6, /* its name has a word for what is left out: "LeftOut CAN" */
    NAPLPS_THREE_D = 7,
    NAPLPS_MISSING = 8,
    NAPLPS_MANY_COLOURS = 9,
    NAPLPS_OUTSIDE = 10,
    NAPLPS_PEN_UNKNOWN = 11,
    NAPLPS_NO_ADDRESS = 12,
    NAPLPS_LONG_RUN = 13,
    NAPLPS_MANY_POINTS = 14,
    NAPLPS_NOTHING_TO_REPEAT = 15,
    NAPLPS_STRAY = 16,
    NAPLPS_BUDGET = 17,
    NAPLPS_STORE = 18,
    NAPLPS_CUT = 19,
    NAPLPS_UNENDED = 20,
    NAPLPS_MEMORY = 21 /* there was no memory, which says nothing of the page */
};

/* An answer. Where nothing is refused, number and place are 0, but of naplps_find the place, and the name is empty; so
   a number that isn't 0 tells of a refusal by each call. NAPLPS_NO_BUDGET comes before all else. NAPLPS_REFUSED comes
   before NAPLPS_SMALL_ROOM, but of naplps_places behind it, since a refused page has a text there.

   It is returned by value, has 56 bytes and is aligned to 8: status is at 0, number at 4, place at 8, length at 16 and
   name at 24. */
struct naplps_answer {
    uint32_t status; /* one of enum naplps_status */
    uint32_t number; /* one of enum naplps_refusal, or 0 */
    uint64_t place;  /* the offset of the byte that is refused; the length of the page for what is found at its end;
                        with NAPLPS_MEMORY it says nothing of the page; of naplps_find see there */
    uint64_t length; /* how many bytes the text has, whatever the room; of naplps_check and naplps_check_finish, how
                        many entries there are; 0 where there is no text or count, so with NAPLPS_NO_BUDGET and
                        NAPLPS_NOT_BEGUN, and with NAPLPS_REFUSED but of naplps_places */
    char name[32];   /* the name of the refusal, in ASCII, the rest NUL, as in the program's line
                        "refused 10 Outside at 3" */
};

/* Counts the entries of a page. */
struct naplps_answer naplps_check(uint32_t budget, const uint8_t *page, size_t length);

/* Gives a line for each entry of a page, in ASCII, each ended by LF, as `naplps list` prints them; PROFILE.md says what
   stands in a line. Of a page that is refused there is no text: status is NAPLPS_REFUSED, length is 0, and the room is
   as it was. */
struct naplps_answer naplps_list(uint32_t budget, const uint8_t *page, size_t length, uint8_t *room, size_t size);

/* Gives the canonical stream of a page, as `naplps canon` prints it: two pages have the same exactly if their entries
   are the same. Of a page that is refused there is none, as with naplps_list. */
struct naplps_answer naplps_canon(uint32_t budget, const uint8_t *page, size_t length, uint8_t *room, size_t size);

/* Gives the text of a page's entries in form 1, which canonical streams had before form 2: it is for comparing with
   what was kept then. It takes more memory than naplps_canon. Of a page that is refused there is none, as with
   naplps_list. */
struct naplps_answer naplps_canon_form1(uint32_t budget, const uint8_t *page, size_t length, uint8_t *room,
                                        size_t size);

/* Gives the lines of naplps_list, each after a number and a space: the offset of the byte that added the entry,
   which is often the first one of the next code; or the length of the page for an entry that came at its end.

   Of a page that is refused there are the lines of the entries before the refusal: status is NAPLPS_REFUSED, and length
   is theirs. Where the room is too small for them, number, place and name tell of the refusal too. With NAPLPS_MEMORY
   there is no line. */
struct naplps_answer naplps_places(uint32_t budget, const uint8_t *page, size_t length, uint8_t *room, size_t size);

/* Gives a line for each page among other bytes, such as those of a disk image, as FINDING.md has them: the offset of
   its first byte, a space, and the offset after its last byte. Each has at least this number of entries, twice as many
   bytes, and one shape. The last line is "open P passed M": from the offset P on bytes that follow may change what is
   found, and M beginnings were passed over. The answer has P as its place. Nothing is refused but for want of memory.

   For bytes in pieces keep those from P on, fewer than 1048576, append the next piece to them, and call again. What
   begins before P is final. */
struct naplps_answer naplps_find(uint32_t least, const uint8_t *bytes, size_t length, uint8_t *room, size_t size);

/* Why lines make no page. */
enum naplps_line_fault {
    NAPLPS_NO_LINE = 1,  /* a line is none that naplps_list gives; its first wrong field begins at the column */
    NAPLPS_MISFIT = 2,   /* the entry of a line can't come behind those of the lines before */
    NAPLPS_UNCLOSED = 3, /* the lines end, and the definition that one of them opens isn't ended */
    NAPLPS_NO_MEMORY = 4 /* there was no memory, which says nothing of the lines */
};

/* What comes of lines. It has 48 bytes and is aligned to 8: status is at 0, fault at 4, line at 8, column at 16,
   opening at 24, length at 32 and count at 40. */
struct naplps_made {
    uint32_t status;  /* NAPLPS_ACCEPTED, NAPLPS_REFUSED or NAPLPS_SMALL_ROOM */
    uint32_t fault;   /* one of enum naplps_line_fault where they make no page, else 0 */
    uint64_t line;    /* the first line that is wrong, counted from 1; the last one with NAPLPS_UNCLOSED; else 0 */
    uint64_t column;  /* with NAPLPS_NO_LINE the column, counted from 1 in bytes; else 0 */
    uint64_t opening; /* with NAPLPS_UNCLOSED the line that opens the definition, counted from 1; else 0 */
    uint64_t length;  /* how many bytes the page has, whatever the room; 0 where they make none */
    uint64_t count;   /* how many entries the page has; 0 where they make none */
};

/* Gives the page that lines make, as `naplps make` prints it: its canonical stream, of which naplps_list gives these
   lines again. They are taken exactly as naplps_list gives them, each ended by LF; there may be none. Where they make
   no page, the status is NAPLPS_REFUSED, and the room is as it was. The room must not overlap the lines. No budget is
   needed: a canonical stream calls no macro. */
struct naplps_made naplps_make(const uint8_t *lines, size_t length, uint8_t *room, size_t size);

/* Whether a page is plain, as each canonical stream is: it has no part in macros and no displacement from the pen, and
   reads its operands under the lengths eight and four, which it sets first. That says nothing of whether the page is
   accepted: a refused page may be plain. It takes no memory, and can't fail. */
bool naplps_is_plain(const uint8_t *page, size_t length);

/* What is kept of a page that comes in pieces. The struct is the caller's: all zeros where no page is begun, as it has
   to be before the first call. What is in it isn't for the caller to read or to change. It may be moved while a page is
   begun; of two copies only one may be used. */
struct naplps_checking {
    void *at;
};

/* The next four do what naplps_check does, to a page that comes in pieces, of which they keep no byte:

       struct naplps_checking page = {0};
       struct naplps_answer answer = naplps_check_begin(&page, NAPLPS_BUDGET_USUAL);
       while (answer.status == NAPLPS_ACCEPTED && (length = next(piece)) > 0)
           answer = naplps_check_feed(&page, piece, length);
       if (answer.status == NAPLPS_ACCEPTED) answer = naplps_check_finish(&page);
       naplps_check_drop(&page);

   A page is for one thread, that which began it. Threads may use pages of their own at the same time. */

/* Begins a page, of which nothing has come. One that was begun in the struct is given up first. No page is begun with
   NAPLPS_NO_BUDGET, nor with NAPLPS_REFUSED, which is for want of memory. */
struct naplps_answer naplps_check_begin(struct naplps_checking *page, uint32_t budget);

/* Takes the next piece, of any length; it may be empty, and isn't used once the call returns. All pieces of a page have
   fewer than 2^63 bytes. Where no page is begun, the status is NAPLPS_NOT_BEGUN. It is NAPLPS_ACCEPTED, with the length
   0, while nothing is refused. A refusal is that of the whole page, whatever comes, and its place counts from the first
   byte of the first piece; each further call answers it again. */
struct naplps_answer naplps_check_feed(struct naplps_checking *page, const uint8_t *piece, size_t length);

/* Ends a page, and answers what naplps_check answers to all pieces, one after another, wherever they were cut; though
   memory may be wanting to the one and not to the other. Then no page is begun, and nothing of it is kept. Where none
   was begun, the status is NAPLPS_NOT_BEGUN. */
struct naplps_answer naplps_check_finish(struct naplps_checking *page);

/* Gives up a page, if one is begun, and gives its memory back. Then no page is begun. */
void naplps_check_drop(struct naplps_checking *page);

#ifdef __cplusplus
}
#endif

#endif
