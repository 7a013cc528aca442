/* How many bytes of stack each function of the library takes: it is called on a stack of its own that was painted before, and the deepest
 * byte that lost its paint tells how far down it went. No function may take more than the header says. The word on the command line is the
 * plan of job A.
 *
 * Counted is what lies below the caller's own variables: arguments that go by the stack, the function, and all that it calls. What the
 * caller lends is the caller's. Bytes that are reserved and never written are not seen.
 */
#define _XOPEN_SOURCE 600
#include "olbiothar.h"

#include <stdio.h>
#include <stdlib.h>
#include <string.h>
#include <ucontext.h>

enum { STACK = 1 << 20, PAINT = 0xa5, CYCLE = 60000, NUMBERS = 64, CONSUMERS_TABLE = 20 };

static void fail(const char *why) {
    fprintf(stderr, "stack: %s\n", why);
    exit(1);
}

typedef struct file {
    uint8_t bytes[OLBIOTHAR_LONGEST_TABLE];
    size_t length;
} file;

/* What the calls are given and give: nothing of it stands on the painted stack. */
static const file *plan, *table;
static olbiothar_frame rows[OLBIOTHAR_FRAMES];
static uint8_t room[OLBIOTHAR_LONGEST_TABLE], text[OLBIOTHAR_LONGEST_SHEET];
static size_t text_length;
static olbiothar_starting starting;
static olbiothar_station station;
static olbiothar_input input;
static olbiothar_answer answer;
static uint8_t edition;
static uint32_t number;
static volatile uint64_t said;

static const uint8_t *caller;

/* From where the stack stands now on down it is counted. */
static inline __attribute__((always_inline)) void count_from_here(void) { __asm__ volatile("mov %%rsp, %0" : "=r"(caller)); }

/* In the edition of the table that the other functions are given. */
static void make(void) {
    count_from_here();
    answer = olbiothar_make(plan->bytes, plan->length, edition, rows, OLBIOTHAR_FRAMES, room, sizeof room);
}

static void check(void) {
    count_from_here();
    answer = olbiothar_check(plan->bytes, plan->length, table->bytes, table->length, rows, OLBIOTHAR_FRAMES);
}

static void begin(void) {
    count_from_here();
    answer = olbiothar_begin(plan->bytes, plan->length, table->bytes, table->length, starting, &station);
}

/* A cycle, or up to a refusal. Each task is given a result as soon as it awaits one: a refused tick changes nothing, so a result that is
 * not awaited is taken back and the tick tried again. */
static void ticks(void) {
    count_from_here();
    for (uint32_t time = 0; time <= CYCLE; time++) {
        memset(input.given, 1, station.fixed.tasks.count);
        while ((answer = olbiothar_tick(&station, input).answer).number == OLBIOTHAR_NOT_AWAITED) input.given[answer.place] = 0;
        if (answer.number != OLBIOTHAR_DONE) return;
    }
}

/* Of the station that the ticks have left, and of every number. */
static void time_now(void) {
    count_from_here();
    said = olbiothar_time(&station).clock;
}

static void modules(void) {
    count_from_here();
    for (number = 0; number <= UINT8_MAX; number++) said = olbiothar_module(&station, (uint8_t)number).age;
}

static void tasks(void) {
    count_from_here();
    for (number = 0; number <= UINT8_MAX; number++) said = olbiothar_task(&station, (uint8_t)number).left;
}

static void sheet(void) {
    count_from_here();
    olbiothar_sheet_answer printed = olbiothar_sheet(plan->bytes, plan->length, table->bytes, table->length, text, sizeof text);
    text_length = printed.length;
    answer = printed.checked;
}

/* Of what the sheet has left. */
static void sheet_table(void) {
    count_from_here();
    answer = olbiothar_sheet_table(text, text_length, room, sizeof room);
}

static void plan_text(void) {
    count_from_here();
    answer = olbiothar_plan_text(plan->bytes, plan->length, text, sizeof text);
    text_length = answer.number == OLBIOTHAR_DONE ? answer.place : 0;
}

/* Of what the plan's text has left. */
static void text_plan(void) {
    count_from_here();
    answer = olbiothar_text_plan(text, text_length, room, sizeof room).answer;
}

static void words(void) {
    count_from_here();
    for (number = 0; number < NUMBERS; number++) said = olbiothar_words(number, text, sizeof text);
}

static void reason_words(void) {
    count_from_here();
    for (number = 0; number < NUMBERS; number++) said = olbiothar_reason_words(number, text, sizeof text);
}

static _Alignas(16) uint8_t stack[STACK];
static ucontext_t here, there;

static ptrdiff_t bytes_of(void (*function)(void)) {
    memset(stack, PAINT, STACK);
    if (getcontext(&there) != 0) fail("no context");
    there.uc_stack.ss_sp = stack;
    there.uc_stack.ss_size = STACK;
    there.uc_link = &here;
    makecontext(&there, function, 0);
    if (swapcontext(&here, &there) != 0) fail("no context");
    size_t painted = 0;
    while (painted < STACK && stack[painted] == PAINT) painted++;
    if (painted == 0) fail("a call took the whole stack");
    return caller - (stack + painted);
}

/* The functions in the order in which they are called, each with what the header says, and what it has taken. */
static struct {
    const char *name;
    void (*call)(void);
    ptrdiff_t most, taken;
} functions[] = {
    {"make", make, OLBIOTHAR_STACK_MAKE, 0},
    {"check", check, OLBIOTHAR_STACK_CHECK, 0},
    {"begin", begin, OLBIOTHAR_STACK_BEGIN, 0},
    {"tick", ticks, OLBIOTHAR_STACK_TICK, 0},
    {"time", time_now, OLBIOTHAR_STACK_TIME, 0},
    {"module", modules, OLBIOTHAR_STACK_MODULE, 0},
    {"task", tasks, OLBIOTHAR_STACK_TASK, 0},
    {"sheet", sheet, OLBIOTHAR_STACK_SHEET, 0},
    {"sheet_table", sheet_table, OLBIOTHAR_STACK_SHEET_TABLE, 0},
    {"plan_text", plan_text, OLBIOTHAR_STACK_PLAN_TEXT, 0},
    {"text_plan", text_plan, OLBIOTHAR_STACK_TEXT_PLAN, 0},
    {"words", words, OLBIOTHAR_STACK_WORDS, 0},
    {"reason_words", reason_words, OLBIOTHAR_STACK_REASON_WORDS, 0},
};
enum { FUNCTIONS = sizeof functions / sizeof *functions };

static uint8_t edition_of(const file *of) {
    return of->length > 0 && of->bytes[0] == CONSUMERS_TABLE ? OLBIOTHAR_CONSUMERS : OLBIOTHAR_BASIC;
}

static void call_all(const file *plan_given, const file *table_given, olbiothar_starting modes) {
    plan = plan_given, table = table_given, edition = edition_of(table_given), starting = modes;
    for (size_t k = 0; k < FUNCTIONS; k++) {
        ptrdiff_t bytes = bytes_of(functions[k].call);
        if (bytes > functions[k].taken) functions[k].taken = bytes;
    }
}

/* A line for each function; whether all take at most what the header says. */
static int say_all(void) {
    int within = 1;
    for (size_t k = 0; k < FUNCTIONS; k++) {
        printf("stack: olbiothar_%-12s %7td bytes, the header says %7td\n", functions[k].name, functions[k].taken, functions[k].most);
        within = within && functions[k].taken <= functions[k].most;
    }
    return within;
}

static file read_file(const char *path) {
    file read = {.length = 0};
    FILE *from = fopen(path, "rb");
    if (from == NULL) fail("no plan of job A");
    read.length = fread(read.bytes, 1, sizeof read.bytes, from);
    fclose(from);
    return read;
}

static void put(file *into, size_t bytes, uint32_t number) {
    for (; bytes > 0; bytes--, number >>= 8) into->bytes[into->length++] = (uint8_t)number;
}

/* Eight nodes, each with a module, a mode and a task; task n runs rates[n] times in a cycle. Task 0 reads all others, and task 1 reads it. */
static file plan_with(const uint16_t rates[OLBIOTHAR_NODES]) {
    file made = {.length = 0};
    const uint32_t bus[] = {100000, 0, 0, 254, 100, 1}; /* kbit/s, overhead, payloads, gap of a tick, resolution */
    put(&made, 1, 1);
    for (size_t k = 0; k < 6; k++) put(&made, k == 0 || k == 5 ? 4 : 2, bus[k]);
    put(&made, 1, 2), put(&made, 1, OLBIOTHAR_NODES);
    for (uint32_t kind = 3; kind <= 7; kind++)
        for (uint32_t n = 0; n < OLBIOTHAR_NODES; n++) {
            put(&made, 1, kind), put(&made, 1, n);
            if (kind == 4) put(&made, 4, CYCLE), put(&made, 4, CYCLE); /* a mode's period and switch period */
            if (kind == 5) put(&made, 1, 1), put(&made, 4, 1);         /* a task's size and worst time */
            if (kind == 6) put(&made, 1, n), put(&made, 2, rates[n]);  /* the task that mode n invokes, and its rate */
            if (kind == 7) put(&made, 1, n == 0);                      /* who reads task n */
        }
    put(&made, 1, 0);
    return made;
}

static file table_of(const file *of, uint8_t in) {
    file made = {.length = 0};
    olbiothar_answer length = olbiothar_make(of->bytes, of->length, in, rows, OLBIOTHAR_FRAMES, made.bytes, sizeof made.bytes);
    if (length.number != OLBIOTHAR_DONE) fail("a plan without a table");
    made.length = length.place;
    return made;
}

/* The same table, whose last row starts at 0 and takes as long: before its release. */
static file early(const file *of) {
    file moved = *of;
    uint32_t times[2];
    uint8_t *at = moved.bytes + moved.length - 1 - sizeof times;
    memcpy(times, at, sizeof times);
    times[1] -= times[0], times[0] = 0;
    memcpy(at, times, sizeof times);
    return moved;
}

int main(int count, char **words) {
    const uint16_t rates[] = {300, 250, 200, 150, 100, 20, 3, 1}, one_more[] = {300, 250, 200, 150, 100, 20, 4, 1};
    const olbiothar_starting none = {.given = {0}}, of_a = {.modes = {0, 2}, .given = {1, 1}};
    const olbiothar_starting of_eight = {.modes = {0, 1, 2, 3, 4, 5, 6, 7}, .given = {1, 1, 1, 1, 1, 1, 1, 1}};
    if (count != 2) fail("which plan?");
    const file job_a = read_file(words[1]), longest = plan_with(rates), too_many = plan_with(one_more), nothing = {.length = 0};
    const file table_a = table_of(&job_a, OLBIOTHAR_BASIC), longest_table = table_of(&longest, OLBIOTHAR_BASIC);
    const file read_a = table_of(&job_a, OLBIOTHAR_CONSUMERS), read_table = table_of(&longest, OLBIOTHAR_CONSUMERS);
    const file early_table = early(&longest_table), early_read = early(&read_table);
    call_all(&job_a, &table_a, of_a);
    call_all(&longest, &longest_table, of_eight);
    call_all(&job_a, &read_a, of_a);
    call_all(&longest, &read_table, of_eight);
    call_all(&longest, &early_read, of_eight);
    call_all(&too_many, &read_table, of_eight);
    call_all(&longest, &longest_table, none);      /* refused: no starting modes */
    call_all(&longest, &early_table, of_eight);    /* refused: a row before its release */
    call_all(&longest, &table_a, of_eight);        /* refused: another plan's table */
    call_all(&too_many, &longest_table, of_eight); /* refused: 1,025 frames */
    call_all(&nothing, &nothing, none);            /* refused: an empty plan */
    if (!say_all()) fail("a call takes more than the header says");
    return 0;
}
