/* How many bytes of a thread's stack each call of the library needs: a stack is painted, the call runs on it, and what is no longer
   painted was used. The arguments are two sheets, an input of queries and a column: examples/women.sheet and men.sheet, by which the
   quotes below are worked on both grids, and so are some of the input and of the column. */
#include "kulfizan.h"

#include <pthread.h>
#include <stdio.h>
#include <string.h>
#include <sys/mman.h>

enum { ROOM = 65536, STACK = 1 << 20, PAINT = 0xA5 };

static uint8_t first[ROOM], second[ROOM], input[ROOM], column[ROOM], output[KULFIZAN_RUN_ROOM(ROOM)];
static size_t first_length, second_length, input_length, column_length;
static int64_t set[KULFIZAN_SET_LENGTH];
static uint8_t number;

enum { NOT_FINE = 100 };

/* The number of a call that quoted, or another where it did not work the fine grid. */
static uint8_t fine(uint8_t no, const uint64_t *quote) {
    return no != KULFIZAN_ACCEPTED || quote[4] == KULFIZAN_FINE_UNIT ? no : NOT_FINE;
}

static void nothing(void) {}
static void reading(void) { number = kulfizan_read(first, first_length, set, KULFIZAN_SET_LENGTH); }
static void writing(void) {
    uint64_t length;
    number = kulfizan_write(set, KULFIZAN_SET_LENGTH, output, sizeof output, &length);
}
static void quoting(void) {
    uint64_t quote[KULFIZAN_QUOTE_LENGTH];
    uint8_t no = kulfizan_quote(first, first_length, (const uint8_t *)"ecoh", 4, 17, 2036, 0, quote, KULFIZAN_QUOTE_LENGTH);
    number = fine(no, quote);
}
static void pricing(void) {
    uint64_t quote[KULFIZAN_QUOTE_LENGTH];
    uint8_t no = kulfizan_annuity(first, first_length, (const uint8_t *)"acoh", 4, 34, 2048, 0, 30000, quote,
                                  KULFIZAN_QUOTE_LENGTH);
    number = fine(no, quote);
}
static void to_a_day(void) {
    uint64_t quote[KULFIZAN_QUOTE_LENGTH];
    uint8_t no = kulfizan_day(first, first_length, 65, 2020, 20301201, quote, KULFIZAN_QUOTE_LENGTH);
    number = fine(no, quote);
}
static void of_two(void) {
    uint64_t quote[KULFIZAN_QUOTE_LENGTH];
    uint8_t no = kulfizan_couple(first, first_length, second, second_length, (const uint8_t *)"elast", 5, 15, 18, 2045, 0, quote,
                                 KULFIZAN_QUOTE_LENGTH);
    number = fine(no, quote);
}
static void aiming(void) {
    uint64_t found;
    int64_t year;
    number = kulfizan_target(first, first_length, 67, 20500000000, &found, &year);
}
static void judging(void) {
    uint64_t verdict;
    number = kulfizan_verdict(first, first_length, 2022, column, column_length, &verdict);
}
static void running(void) {
    uint64_t length;
    number = kulfizan_run(input, input_length, 1, output, sizeof output, &length);
}

static const struct {
    const char *name;
    void (*call)(void);
} CALLS[] = {{"nothing", nothing}, {"read", reading},   {"write", writing}, {"quote", quoting},   {"annuity", pricing},
             {"day", to_a_day},    {"couple", of_two}, {"target", aiming}, {"verdict", judging}, {"run", running}};

static void *work(void *call) {
    (*(void (**)(void))call)();
    return NULL;
}

static size_t used_by(void (*call)(void)) {
    uint8_t *stack = mmap(NULL, STACK, PROT_READ | PROT_WRITE, MAP_PRIVATE | MAP_ANONYMOUS, -1, 0);
    size_t free_bytes = 0;
    pthread_attr_t attributes;
    pthread_t thread;
    memset(stack, PAINT, STACK);
    pthread_attr_init(&attributes);
    if (pthread_attr_setstack(&attributes, stack, STACK) || pthread_create(&thread, &attributes, work, &call)) return STACK;
    pthread_join(thread, NULL);
    while (free_bytes < STACK && stack[free_bytes] == PAINT) free_bytes++;
    munmap(stack, STACK);
    return STACK - free_bytes;
}

static size_t read_file(const char *name, uint8_t *into) {
    FILE *file = fopen(name, "rb");
    size_t length = file ? fread(into, 1, ROOM, file) : 0;
    if (file) fclose(file);
    return length;
}

int main(int argc, char **argv) {
    if (argc != 5) return 2;
    first_length = read_file(argv[1], first);
    second_length = read_file(argv[2], second);
    input_length = read_file(argv[3], input);
    column_length = read_file(argv[4], column);
    size_t own = 0;
    for (size_t i = 0; i < sizeof CALLS / sizeof *CALLS; i++) {
        number = 0;
        size_t used = used_by(CALLS[i].call);
        if (i == 0) own = used;
        else printf("%s no=%d bytes=%zu\n", CALLS[i].name, number, used - own);
    }
    return 0;
}
