/* An x86-64 program around the archive, for machines of another kind: it runs under the toolchain's emulator, takes calls from
 * its standard input and gives what came back on its standard output. forward.c has the other end and says what a call looks like.
 *
 * The toolchain has an x86-64 C library to link but no headers for it, so the few functions used are declared here.
 */
#include <stddef.h>
#include <stdint.h>

#include "../../../include/maxt.h"

long read(int file, void *bytes, size_t length);
long write(int file, const void *bytes, size_t length);
void *realloc(void *room, size_t length);
void *memcpy(void *to, const void *from, size_t length);
int memcmp(const void *one, const void *other, size_t length);
_Noreturn void _exit(int status);

enum { INPUT = 0, OUTPUT = 1, BROKEN = 3 };

/* 0 only at the end of the input, and only before the first byte. */
static int take(void *bytes, size_t length) {
    size_t taken = 0;
    while (taken < length) {
        long more = read(INPUT, (char *)bytes + taken, length - taken);
        if (more == 0 && taken == 0)
            return 0;
        if (more <= 0)
            _exit(BROKEN);
        taken += (size_t)more;
    }
    return 1;
}

static void give(const void *bytes, size_t length) {
    size_t given = 0;
    while (given < length) {
        long more = write(OUTPUT, (const char *)bytes + given, length - given);
        if (more <= 0)
            _exit(BROKEN);
        given += (size_t)more;
    }
}

static void *room_for(void *room, size_t length) {
    room = realloc(room, length);
    if (room == NULL)
        _exit(BROKEN);
    return room;
}

/* A list is lent between two places that nobody may touch. */
struct list {
    uint64_t *room;
    size_t length;
};

static const uint64_t untouched = 0x0DD0CAFE;

/* Takes a list and returns its first place. */
static uint64_t *take_list(struct list *list, size_t length) {
    list->room = room_for(list->room, (length + 2) * sizeof *list->room);
    list->length = length;
    list->room[0] = list->room[length + 1] = untouched;
    take(list->room + 1, length * sizeof *list->room);
    return list->room + 1;
}

static void give_list(const struct list *list) {
    if (list->room[0] != untouched || list->room[list->length + 1] != untouched)
        _exit(BROKEN);
    give(list->room + 1, list->length * sizeof *list->room);
}

static void answer_call(const uint8_t *sheet, const uint64_t call[5]) {
    static struct list lent;
    uint64_t answer[3];
    uint64_t *table = take_list(&lent, call[2]);
    maxt_answer(sheet, call[1], table, call[2], answer);
    give(answer, sizeof answer);
    give_list(&lent);
}

static void routine_call(const uint8_t *sheet, const uint64_t call[5]) {
    uint64_t part[2];
    maxt_routine(sheet, call[1], call[2], part);
    give(part, sizeof part);
}

/* The deadlines do not go back, so whether they and the places around them are unchanged is seen here. */
static void margins_call(const uint8_t *sheet, const uint64_t call[5]) {
    static struct list lent_table, lent_deadlines, lent_margins;
    static uint64_t *before = NULL;
    uint64_t answer[3];
    uint64_t *table = take_list(&lent_table, call[2]);
    uint64_t *deadlines = take_list(&lent_deadlines, call[3]);
    int64_t *margins = (int64_t *)take_list(&lent_margins, call[4]);
    size_t bytes = (call[3] + 2) * sizeof *before;
    before = memcpy(room_for(before, bytes), lent_deadlines.room, bytes);
    maxt_margins(sheet, call[1], table, call[2], deadlines, call[3], margins, call[4], answer);
    if (memcmp(before, lent_deadlines.room, bytes) != 0)
        _exit(BROKEN);
    give(answer, sizeof answer);
    give_list(&lent_table);
    give_list(&lent_margins);
}

static void work_call(const uint8_t *sheet, const uint64_t call[5]) {
    static struct list lent;
    uint64_t answer[3];
    uint64_t *table = take_list(&lent, call[2]);
    uint64_t work = maxt_work(sheet, call[1], table, call[2], answer);
    give(&work, sizeof work);
    give(answer, sizeof answer);
    give_list(&lent);
}

int main(void) {
    static void (*const entries[])(const uint8_t *, const uint64_t *) = {answer_call, routine_call, margins_call, work_call};
    uint8_t *sheet = NULL;
    uint64_t call[5];
    while (take(call, sizeof call)) {
        sheet = room_for(sheet, call[1] + 1);
        take(sheet, call[1]);
        entries[call[0]](sheet, call);
    }
    return 0;
}
