/* The archive's four entries for a machine that is not x86-64. Each call goes to the program of serve.c, which runs under the
 * toolchain's emulator and calls the archive itself. Nothing is worked out here.
 *
 * A call is five numbers: the entry, the sheet's length and three of the entry's own, 0 where it has fewer; then the sheet and
 * the lists that are lent. What comes back are the number that the entry returns, if it does, the numbers that it stores and the
 * lists that it may write:
 *
 *     entry           numbers of its own                       lent                         back
 *     0 maxt_answer   the table's length                       table                        answer, table
 *     1 maxt_routine  the routine's number                                                  part
 *     2 maxt_margins  lengths of table, deadlines, margins     table, deadlines, margins    answer, table, margins
 *     3 maxt_work     the table's length                       table                        what it returned, answer, table
 *
 * Built with the four paths EMULATOR, LOADER, LIBRARIES and SERVE as texts.
 */
#define _GNU_SOURCE
#include <fcntl.h>
#include <stdio.h>
#include <stdlib.h>
#include <unistd.h>

#include "../../../include/maxt.h"

/* Each thread has a program of its own; it ends with the thread's process, at the end of its input. */
static _Thread_local int to_program = -1, from_program = -1;

static _Noreturn void broken(const char *what) {
    fprintf(stderr, "forward: %s\n", what);
    abort();
}

static void start(void) {
    int calls[2], answers[2];
    if (pipe2(calls, O_CLOEXEC) != 0 || pipe2(answers, O_CLOEXEC) != 0)
        broken("no pipe");
    pid_t program = fork();
    if (program < 0)
        broken("no process");
    if (program == 0) {
        dup2(calls[0], STDIN_FILENO);
        dup2(answers[1], STDOUT_FILENO);
        execl(EMULATOR, EMULATOR, LOADER, "--library-path", LIBRARIES, SERVE, (char *)NULL);
        _exit(127);
    }
    close(calls[0]);
    close(answers[1]);
    to_program = calls[1];
    from_program = answers[0];
}

static void give(const void *bytes, size_t length) {
    size_t given = 0;
    while (given < length) {
        ssize_t more = write(to_program, (const char *)bytes + given, length - given);
        if (more <= 0)
            broken("the program around the archive takes nothing");
        given += (size_t)more;
    }
}

static void take(void *bytes, size_t length) {
    size_t taken = 0;
    while (taken < length) {
        ssize_t more = read(from_program, (char *)bytes + taken, length - taken);
        if (more <= 0)
            broken("the program around the archive has ended");
        taken += (size_t)more;
    }
}

static void call(const uint64_t numbers[5], const uint8_t *sheet) {
    if (to_program < 0)
        start();
    give(numbers, 5 * sizeof *numbers);
    give(sheet, numbers[1]);
}

void maxt_answer(const uint8_t *sheet, size_t sheet_length, uint64_t *table, size_t table_length, uint64_t answer[3]) {
    call((uint64_t[5]){0, sheet_length, table_length}, sheet);
    give(table, table_length * sizeof *table);
    take(answer, 3 * sizeof *answer);
    take(table, table_length * sizeof *table);
}

void maxt_routine(const uint8_t *sheet, size_t sheet_length, uint64_t number, uint64_t part[2]) {
    call((uint64_t[5]){1, sheet_length, number}, sheet);
    take(part, 2 * sizeof *part);
}

void maxt_margins(const uint8_t *sheet, size_t sheet_length, uint64_t *table, size_t table_length, const uint64_t *deadlines,
                  size_t deadlines_length, int64_t *margins, size_t margins_length, uint64_t answer[3]) {
    call((uint64_t[5]){2, sheet_length, table_length, deadlines_length, margins_length}, sheet);
    give(table, table_length * sizeof *table);
    give(deadlines, deadlines_length * sizeof *deadlines);
    give(margins, margins_length * sizeof *margins);
    take(answer, 3 * sizeof *answer);
    take(table, table_length * sizeof *table);
    take(margins, margins_length * sizeof *margins);
}

uint64_t maxt_work(const uint8_t *sheet, size_t sheet_length, uint64_t *table, size_t table_length, uint64_t answer[3]) {
    uint64_t work;
    call((uint64_t[5]){3, sheet_length, table_length}, sheet);
    give(table, table_length * sizeof *table);
    take(&work, sizeof work);
    take(answer, 3 * sizeof *answer);
    take(table, table_length * sizeof *table);
    return work;
}
