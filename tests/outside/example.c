/* Prints the bounds of a timing sheet, or its refusal, as document 01 says of the program `maxt`:
 *
 *     example [SHEET]                         without a name it reads standard input
 *     example --deadlines D1,D2,.. [SHEET]    and behind each bound the routine's margin, by document 02's request L1;
 *                                             routines behind the last deadline given have 0
 *     example --work [SHEET]                  and in a last line the number of constructs valued, by request L2
 *
 *     gcc -O2 -Iinclude tests/outside/example.c target/staticlib/libboundary.a -o example
 */
#include <errno.h>
#include <inttypes.h>
#include <stdio.h>
#include <stdlib.h>
#include <string.h>

#include "maxt.h"

/* One byte more than the longest sheet, so that what is longer is refused and not cut. */
#define ROOM 60001

/* margins is NULL where no deadlines were given. */
static void print_bounds(const uint8_t *sheet, size_t length, const uint64_t *table, const int64_t *margins, uint64_t bound) {
    uint64_t part[2];
    for (uint64_t number = 1;; number++) {
        maxt_routine(sheet, length, number, part);
        if (part[0] == part[1])    /* a routine has at least two records, so there is none with this number */
            break;
        printf("routine %" PRIu64 " %" PRIu64, number, table[number - 1]);
        if (margins != NULL)
            printf(" margin %" PRId64, margins[number - 1]);
        putchar('\n');
    }
    printf("bound %" PRIu64 "\n", bound);
}

/* deadlines is NULL where none were given, and otherwise MAXT_ROUTINES long; they and the work are not asked for together. */
static void print_answer(const uint8_t *sheet, size_t length, const uint64_t *deadlines, int with_work) {
    uint64_t table[MAXT_ROUTINES] = {0}, answer[3], work = 0;
    int64_t room[MAXT_ROUTINES] = {0}, *margins = deadlines != NULL ? room : NULL;
    if (margins != NULL)
        maxt_margins(sheet, length, table, MAXT_ROUTINES, deadlines, MAXT_ROUTINES, margins, MAXT_ROUTINES, answer);
    else if (with_work)
        work = maxt_work(sheet, length, table, MAXT_ROUTINES, answer);
    else
        maxt_answer(sheet, length, table, MAXT_ROUTINES, answer);
    if (answer[0] == MAXT_ACCEPTED)
        print_bounds(sheet, length, table, margins, answer[2]);
    else
        printf("refused %" PRIu64 " at %" PRIu64 "\n", answer[0], answer[1]);
    if (with_work)
        printf("work %" PRIu64 "\n", work);
}

/* 0 if the text is not one to MAXT_ROUTINES numbers of 64 bits with commas between them. */
static int read_deadlines(const char *text, uint64_t *deadlines) {
    for (size_t at = 0; at < MAXT_ROUTINES; at++) {
        char *end;
        if (*text < '0' || *text > '9')    /* strtoull would take a blank or a sign */
            return 0;
        errno = 0;
        deadlines[at] = strtoull(text, &end, 10);
        if (errno != 0)
            return 0;
        if (*end == '\0')
            return 1;
        if (*end != ',')
            return 0;
        text = end + 1;
    }
    return 0;
}

/* 0 if it cannot be read: that is not an empty sheet, and there is no answer. */
static int read_sheet(const char *name, uint8_t *sheet, size_t *length) {
    FILE *file = name != NULL ? fopen(name, "rb") : stdin;
    if (file == NULL) {
        perror(name);
        return 0;
    }
    *length = fread(sheet, 1, ROOM, file);
    if (ferror(file)) {
        perror("reading the sheet");
        return 0;
    }
    return 1;
}

int main(int words, char **word) {
    static uint8_t sheet[ROOM];
    uint64_t deadlines[MAXT_ROUTINES] = {0};
    size_t length;
    int with_deadlines = words > 1 && strcmp(word[1], "--deadlines") == 0;
    int with_work = words > 1 && strcmp(word[1], "--work") == 0;
    if (with_deadlines && (words < 3 || !read_deadlines(word[2], deadlines))) {
        fprintf(stderr, "--deadlines takes 1 to %d numbers with commas between them\n", MAXT_ROUTINES);
        return 2;
    }
    int name = with_deadlines ? 3 : with_work ? 2 : 1;
    if (!read_sheet(name < words ? word[name] : NULL, sheet, &length))
        return 2;
    print_answer(sheet, length, with_deadlines ? deadlines : NULL, with_work);
    return fflush(stdout) == 0 ? 0 : 2;
}
