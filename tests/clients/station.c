/* A client of the library as the engineer of a board writes one: from a plan's text to its table, the table's sheet, and a station that
 * plays it. Nothing is taken from the heap.
 *
 *   station PLAN-TEXT SHEET
 *
 * Each task gives its results when the station says that it may: those with an even number at the last tick that is allowed, the others at
 * the first. Written to standard output is what node 1 shows of each task, whenever that changes; to the file SHEET the table's sheet.
 *
 * Status 0: the plan was played, and everything was as the header says. 1: the plan was refused (the words are on standard output), or
 * something was not as the header says (on standard error). 2: wrong use, or a file that cannot be read or written.
 */
#include "olbiothar.h"

#include <stdio.h>
#include <stdlib.h>
#include <string.h>

enum { BOARD = 1, MOST_TICKS = 120001, LONGEST_PLAN = 65536 };

static uint8_t text[OLBIOTHAR_LONGEST_SHEET], plan[LONGEST_PLAN], table[OLBIOTHAR_LONGEST_TABLE];
static size_t text_length, plan_length, table_length;
static olbiothar_frame rows[OLBIOTHAR_FRAMES];
static olbiothar_station station;

static void expect(int it_is, const char *what, int line) {
    if (it_is) return;
    fprintf(stderr, "station.c:%d: not so: %s\n", line, what);
    exit(1);
}

#define EXPECT(what) expect(what, #what, __LINE__)

static void give_up(const char *name, const char *why) {
    fprintf(stderr, "station: %s: %s\n", name, why);
    exit(2);
}

static void read_text(const char *name) {
    FILE *from = fopen(name, "rb");
    if (from == NULL) give_up(name, "cannot be opened");
    text_length = fread(text, 1, sizeof text, from);
    if (ferror(from) || fgetc(from) != EOF) give_up(name, "cannot be read, or is too long");
    fclose(from);
}

/* A refusal in words ends the program. */
static void refuse(const char *name, olbiothar_answer answer) {
    char words[OLBIOTHAR_LONGEST_WORDS];
    EXPECT(olbiothar_words(answer.number, (uint8_t *)words, sizeof words) == strlen(words) && words[0] != 0);
    printf("%s: refused %u at %llu: %s\n", name, answer.number, (unsigned long long)answer.place, words);
    exit(1);
}

static void refuse_line(const char *name, olbiothar_plan_answer read) {
    char why[OLBIOTHAR_LONGEST_WORDS];
    EXPECT(olbiothar_reason_words(read.reason, (uint8_t *)why, sizeof why) == strlen(why) && why[0] != 0);
    printf("%s: unreadable line %llu: %s\n", name, (unsigned long long)read.answer.place, why);
    exit(1);
}

/* What was read prints again, and the print reads as the same plan. */
static void print_back(void) {
    static uint8_t printed[OLBIOTHAR_LONGEST_SHEET], again[LONGEST_PLAN];
    olbiothar_answer asked = olbiothar_plan_text(plan, plan_length, NULL, 0);
    EXPECT(asked.number == OLBIOTHAR_BUFFER_TOO_SHORT && asked.place <= sizeof printed);
    olbiothar_answer answer = olbiothar_plan_text(plan, plan_length, printed, asked.place);
    EXPECT(answer.number == OLBIOTHAR_DONE && answer.place == asked.place);
    olbiothar_plan_answer read = olbiothar_text_plan(printed, answer.place, again, sizeof again);
    EXPECT(read.answer.number == OLBIOTHAR_DONE && read.answer.place == plan_length && read.reason == OLBIOTHAR_NO_REASON);
    EXPECT(memcmp(plan, again, plan_length) == 0);
}

static void read_plan(const char *name) {
    olbiothar_plan_answer read = olbiothar_text_plan(text, text_length, plan, sizeof plan);
    if (read.answer.number == OLBIOTHAR_UNREADABLE) refuse_line(name, read);
    if (read.answer.number != OLBIOTHAR_DONE) refuse(name, read.answer);
    plan_length = read.answer.place;
    print_back();
}

static void make_table(const char *name) {
    olbiothar_answer made = olbiothar_make(plan, plan_length, OLBIOTHAR_BASIC, rows, OLBIOTHAR_FRAMES, table, sizeof table);
    if (made.number != OLBIOTHAR_DONE) refuse(name, made);
    table_length = made.place;
    olbiothar_answer checked = olbiothar_check(plan, plan_length, table, table_length, rows, OLBIOTHAR_FRAMES);
    EXPECT(checked.number == OLBIOTHAR_DONE && checked.place == 0);
    printf("%s: a table of %zu bytes\n", name, table_length);
}

/* The sheet goes into the file, and reads back to the table. */
static void print_sheet(const char *name) {
    static uint8_t back[OLBIOTHAR_LONGEST_TABLE];
    olbiothar_sheet_answer sheet = olbiothar_sheet(plan, plan_length, table, table_length, text, sizeof text);
    EXPECT(sheet.checked.number == OLBIOTHAR_DONE && sheet.length > 0);
    olbiothar_answer read = olbiothar_sheet_table(text, sheet.length, back, sizeof back);
    EXPECT(read.number == OLBIOTHAR_DONE && read.place == table_length && memcmp(back, table, table_length) == 0);
    FILE *into = fopen(name, "wb");
    if (into == NULL) give_up(name, "cannot be opened");
    if (fwrite(text, 1, sheet.length, into) != sheet.length || fclose(into) != 0) give_up(name, "cannot be written");
}

/* Each module begins in its first mode: the refusal names the module that has none of its own yet, and leaves the station not begun. */
static void begin(const char *name) {
    olbiothar_starting starting = {.given = {0}};
    for (;;) {
        olbiothar_answer answer = olbiothar_begin(plan, plan_length, table, table_length, starting, &station);
        if (answer.number == OLBIOTHAR_DONE) break;
        EXPECT(answer.number == OLBIOTHAR_NOT_BEGUN && answer.place < OLBIOTHAR_MODULES && !olbiothar_time(&station).begun);
        if (starting.given[answer.place]) starting.modes[answer.place]++;
        starting.given[answer.place] = 1;
        if (starting.modes[answer.place] == OLBIOTHAR_MODES) refuse(name, answer); /* a module without modes */
    }
    olbiothar_time_now time = olbiothar_time(&station);
    EXPECT(time.begun && time.clock == 0 && time.period > 0);
    for (uint8_t module = 0; olbiothar_module(&station, module).there; module++) {
        olbiothar_module_now now = olbiothar_module(&station, module);
        EXPECT(now.mode == starting.modes[module] && now.age == 0 && now.node < OLBIOTHAR_NODES);
    }
}

/* What the station says of its tasks before a tick. */
static olbiothar_task_now tasks[OLBIOTHAR_TASKS];
static uint8_t task_count;

static void ask_tasks(void) {
    for (task_count = 0; task_count < OLBIOTHAR_TASKS; task_count++) {
        tasks[task_count] = olbiothar_task(&station, task_count);
        if (!tasks[task_count].there) return;
    }
}

static uint64_t results, changes;

/* A run's result: how many the task has had with it, as a byte that is never 0, for every task has a byte. */
static uint64_t next_result(uint8_t task) {
    static uint64_t had[OLBIOTHAR_TASKS];
    results++;
    return had[task]++ % 255 + 1;
}

/* What the next tick is given. */
static olbiothar_input results_now(void) {
    olbiothar_input input = {.given = {0}};
    for (uint8_t task = 0; task < task_count; task++) {
        if (!tasks[task].awaits || (task % 2 == 0 && tasks[task].left > 0)) continue;
        input.given[task] = 1;
        input.results[task] = next_result(task);
    }
    return input;
}

/* The lowest task whose result must come with the next tick, and the lowest place that awaits none. */
static uint8_t first_due(void) {
    uint8_t task = 0;
    while (task < task_count && (!tasks[task].awaits || tasks[task].left > 0)) task++;
    return task;
}

static uint8_t first_not_awaited(void) {
    uint8_t task = 0;
    while (task < task_count && tasks[task].awaits) task++;
    return task;
}

static void try_refused(olbiothar_input input, uint32_t number, uint8_t task) {
    static olbiothar_station before;
    before = station;
    olbiothar_answer answer = olbiothar_tick(&station, input).answer;
    EXPECT(answer.number == number && answer.place == task);
    EXPECT(station.play.clock == before.play.clock && memcmp(station.play.out, before.play.out, sizeof before.play.out) == 0);
    EXPECT(memcmp(station.nodes, before.nodes, sizeof before.nodes) == 0);
}

/* What the station says of its tasks is what its tick refuses. */
static void try_refusals(void) {
    olbiothar_input nothing = {.given = {0}}, too_soon = {.given = {0}};
    const uint8_t due = first_due(), not_awaited = first_not_awaited();
    if (due < task_count) try_refused(nothing, OLBIOTHAR_RESULT_OVERDUE, due);
    if (not_awaited == OLBIOTHAR_TASKS) return;
    too_soon.given[not_awaited] = 1;
    try_refused(too_soon, OLBIOTHAR_NOT_AWAITED, not_awaited);
}

/* What node 1 shows of a task is what the task's own node shows. */
static void show_changes(uint32_t time) {
    static uint64_t shown[OLBIOTHAR_TASKS];
    for (uint8_t task = 0; task < task_count; task++) {
        const uint64_t value = station.nodes[BOARD].shown[task];
        if (value == shown[task]) continue;
        EXPECT(value == station.nodes[olbiothar_module(&station, tasks[task].home).node].shown[task]);
        printf("%u: node %u shows %llu of task %u\n", time, BOARD, (unsigned long long)value, task);
        shown[task] = value;
        changes++;
    }
}

/* Two cycles and a tick, if they are not too long. */
static void play(void) {
    const uint32_t period = olbiothar_time(&station).period;
    const uint32_t ticks = 2 * period < MOST_TICKS ? 2 * period + 1 : MOST_TICKS;
    for (uint32_t time = 0; time < ticks; time++) {
        EXPECT(olbiothar_time(&station).clock == (time == 0 ? 0 : (time - 1) % period + 1));
        ask_tasks();
        if (time % 100 == 0 || first_due() < task_count) try_refusals();
        olbiothar_answer answer = olbiothar_tick(&station, results_now()).answer;
        EXPECT(answer.number == OLBIOTHAR_DONE && answer.place == 0);
        show_changes(time);
    }
    printf("%u ticks, %llu results, %llu changes on node %u\n", ticks, (unsigned long long)results, (unsigned long long)changes, BOARD);
}

int main(int count, char **words) {
    if (count != 3) give_up("usage", "station PLAN-TEXT SHEET");
    read_text(words[1]);
    read_plan(words[1]);
    make_table(words[1]);
    print_sheet(words[2]);
    begin(words[1]);
    play();
    return 0;
}
