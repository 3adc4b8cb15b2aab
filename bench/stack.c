/* How much stack a call needs: measured on a painted stack, and tried on one that is just so large.
 * What is given counts from the caller's stack pointer at the call down to the lowest byte that was written. */
#include "bench.h"

#include <pthread.h>
#include <stdio.h>
#include <stdlib.h>
#include <string.h>
#include <sys/mman.h>
#include <sys/wait.h>
#include <ucontext.h>
#include <unistd.h>

#define AREA (1 << 20)
#define SMALL (256 * 1024)
#define PLACES 64
#define SHEETS_MOST 64
#define BEGINNINGS 1200 /* bytes: more than the first way down to depth 24 takes */

static struct {
    const char *name;
    size_t size, length;
    uint8_t bytes[SHEET_MOST];
} sheets[SHEETS_MOST];
static size_t count;

static void add(const struct shape *s, size_t size)
{
    sheets[count].name = s->name;
    sheets[count].size = size;
    sheets[count].length = build_sheet(s, size, sheets[count].bytes);
    count++;
}

/* How much of a sheet its beginnings are tried up to. */
static size_t begins(size_t i)
{
    return sheets[i].length < BEGINNINGS ? sheets[i].length : BEGINNINGS;
}

static void add_all(void)
{
    for (const struct shape *s = shapes; s->name != NULL; s++)
        for (size_t size = 600; size <= SHEET_MOST; size *= 10)
            add(s, size);
    for (const struct shape *s = worst; s->name != NULL; s++)
        add(s, SHEET_MOST);
}

/* ---- a call on a stack of its own */

static struct {
    calculator *answer;
    const uint8_t *sheet;
    size_t length;
    uint64_t said[3], table[PLACES];
} job;

static ucontext_t here, there;

static void entry(void)
{
    job.answer(job.sheet, job.length, job.table, PLACES, job.said);
}

static void call_on(uint8_t *stack, size_t size)
{
    getcontext(&there);
    there.uc_stack.ss_sp = stack;
    there.uc_stack.ss_size = size;
    there.uc_link = &here;
    makecontext(&there, entry, 0);
    swapcontext(&here, &there);
}

static void set_job(calculator *c, const uint8_t *sheet, size_t length)
{
    job.answer = c;
    job.sheet = sheet;
    job.length = length;
}

/* Where the caller's stack pointer stands at the call: past the return address and the saved frame pointer. */
static uint8_t *caller;

static void where(const uint8_t *sheet, size_t length, uint64_t *table, size_t places, uint64_t *answer)
{
    (void)sheet, (void)length, (void)table, (void)places, (void)answer;
    caller = (uint8_t *)__builtin_frame_address(0) + 16;
}

static uint8_t *area;

/* From the call down to the lowest byte that is not as it was painted. */
static size_t used(uint8_t paint)
{
    size_t i = 0;

    while (i < AREA && area[i] == paint)
        i++;
    return (size_t)(caller - (area + i));
}

static size_t larger(size_t a, size_t b)
{
    return a > b ? a : b;
}

/* Two paints, since a byte may be written that looks like the paint. */
static size_t need_of(calculator *c, const uint8_t *sheet, size_t from, size_t to)
{
    static const uint8_t paints[] = {0xa5, 0x5a};
    size_t most = 0;

    for (int i = 0; i < 2; i++) {
        memset(area, paints[i], AREA);
        for (size_t length = from; length <= to; length += 4) {
            set_job(c, sheet, length);
            call_on(area, AREA);
        }
        most = larger(most, used(paints[i]));
    }
    return most;
}

/* ---- a stack of just so many bytes above a page that may not be touched */

/* All sheets, and their beginnings, which are refused. */
static void serve_all(calculator *c, uint8_t *stack, size_t size)
{
    for (size_t i = 0; i < count; i++) {
        set_job(c, sheets[i].bytes, sheets[i].length);
        call_on(stack, size);
        for (size_t length = 0; length <= begins(i); length += 4) {
            set_job(c, sheets[i].bytes, length);
            call_on(stack, size);
        }
    }
}

/* Whether all sheets are served, in a process of its own, by a stack that ends so many bytes below the call. */
static int is_served(calculator *c, size_t need)
{
    size_t page = (size_t)sysconf(_SC_PAGESIZE), above = (size_t)(area + AREA - caller);
    size_t size = need + above, whole = (size + 2 * page) / page * page;
    int status;
    pid_t child;

    fflush(stdout);
    child = fork();
    if (child == 0) {
        uint8_t *guard = mmap(NULL, page + whole, PROT_READ | PROT_WRITE, MAP_PRIVATE | MAP_ANONYMOUS, -1, 0);
        if (guard == MAP_FAILED || mprotect(guard, page, PROT_NONE) != 0)
            _exit(2);
        serve_all(c, guard + page, size);
        _exit(0);
    }
    waitpid(child, &status, 0);
    return WIFEXITED(status) && WEXITSTATUS(status) == 0;
}

/* ---- a thread with 256 KB */

static int wrong;

static void *in_thread(void *data)
{
    calculator *c = ((const struct named *)data)->answer;
    uint64_t table[PLACES], said[3];

    for (size_t i = 0; i < count; i++) {
        c(sheets[i].bytes, sheets[i].length, table, PLACES, said);
        wrong += said[0] != 0 || said[2] == 0;
    }
    return NULL;
}

static int is_served_by_thread(const struct named *c)
{
    pthread_attr_t small;
    pthread_t thread;

    wrong = 0;
    pthread_attr_init(&small);
    if (pthread_attr_setstacksize(&small, SMALL) != 0 || pthread_create(&thread, &small, in_thread, (void *)c) != 0)
        return 0;
    pthread_join(thread, NULL);
    return wrong == 0;
}

static int stack_of(const struct named *c)
{
    size_t most = 0, at = 0, begun = 0, exact;
    int all, fewer, thread;

    for (size_t i = 0; i < count; i++) {
        size_t need = need_of(c->answer, sheets[i].bytes, sheets[i].length, sheets[i].length);
        if (need > most)
            most = need, at = i;
        begun = larger(begun, need_of(c->answer, sheets[i].bytes, 0, begins(i)));
    }
    printf("stack: %s needs %zu bytes, for the sheet '%s' of %zu bytes, and %zu for the beginning of some sheet, which is refused\n", c->name, most, sheets[at].name, sheets[at].length, begun);
    exact = (larger(most, begun) + 15) / 16 * 16;
    all = is_served(c->answer, exact);
    fewer = is_served(c->answer, exact - 16);
    thread = is_served_by_thread(c);
    printf("stack: %s with %zu bytes above a page that may not be touched: all %zu sheets and their beginnings %s; with %zu bytes: %s\n", c->name, exact, count, all ? "served" : "NOT SERVED", exact - 16, fewer ? "SERVED" : "killed");
    printf("stack: %s in a thread with %d KB: all %zu sheets %s\n", c->name, SMALL / 1024, count, thread ? "served" : "NOT SERVED");
    return !all || fewer || !thread;
}

int stacks(void)
{
    int failed = 0;

    add_all();
    area = mmap(NULL, AREA, PROT_READ | PROT_WRITE, MAP_PRIVATE | MAP_ANONYMOUS, -1, 0);
    if (area == MAP_FAILED)
        return perror("mmap"), 2;
    set_job(where, NULL, 0);
    call_on(area, AREA);
    for (const struct named *c = calculators; c->name != NULL; c++)
        failed |= stack_of(c);
    return failed;
}
