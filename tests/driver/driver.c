/* Calls the library as it is asked to on standard input, and answers on standard output. Numbers are little-endian.
 *
 *   make:  'M' plan length u32, rows u32, room u32, edition u8, plan, rows, buffer  ->  answer, rows, buffer
 *   check: 'C' plan length u32, table length u32, rows u32, plan, table, rows  ->  answer, rows
 *   begin: 'B' plan length u32, table length u32, plan, table, modes 16 x u8, given 16 x u8  ->  answer
 *   forget: 'F'  ->  nothing
 *   tick:  'T' results 32 x u64, given 32 x u8, modes 16 x u8, changed 16 x u8  ->  answer, row, shown 8 x 32 x u64
 *   time, module, task: 'N'  ->  begun u8, clock u32, period u32, 16 x (there u8, node u8, mode u8, age u32),
 *       32 x (there u8, home u8, awaits u8, left u32)
 *   sheet: 'S' plan length u32, table length u32, room u32, old u8, plan, table  ->  answer, length u64, text
 *   sheet_table: 'R' text length u32, room u32, text, buffer  ->  answer, buffer
 *   plan_text: 'P' plan length u32, room u32, old u8, plan  ->  answer, text if it is not refused
 *   text_plan: 'Q' text length u32, room u32, text, buffer  ->  answer, reason u32, buffer
 *   words, reason_words: 'W' 0 or 1 u8, number u32, room u32, buffer  ->  length u64, buffer
 *
 * A row of frames is four u32: task, release, deadline, start; an answer is number u32, place u64; a row of the table that starts is
 * kind u8, sender u8, deadline u32, start u32, stop u32. A sheet or a plan's text is lent `room` bytes that are all `old`; that those behind
 * the text still are is looked at here, so that a quarter of a megabyte need not go there and back for each.
 *
 * There is one station. It is not begun at first, and again when it is to be forgotten; that a refused beginning leaves it as it stood is
 * looked at here.
 *
 * All memory that the library is lent ends at a page that nothing may touch, and what stands before it is looked at after each call.
 */
#define _GNU_SOURCE
#include "olbiothar.h"
#include "same.h"

#include <stdio.h>
#include <stdlib.h>
#include <string.h>
#include <sys/mman.h>
#include <unistd.h>

static void fail(const char *why) {
    fprintf(stderr, "driver: %s\n", why);
    exit(3);
}

static void take(void *into, size_t length) {
    if (fread(into, 1, length, stdin) != length) fail("a request is cut");
}

static void give(const void *from, size_t length) {
    if (fwrite(from, 1, length, stdout) != length) fail("an answer cannot be written");
}

static uint8_t take_u8(void) {
    uint8_t number;
    take(&number, sizeof number);
    return number;
}

static uint32_t take_u32(void) {
    uint32_t number;
    take(&number, sizeof number);
    return number;
}

static void give_u8(uint8_t number) { give(&number, sizeof number); }

static void give_u32(uint32_t number) { give(&number, sizeof number); }

static void give_u64(uint64_t number) { give(&number, sizeof number); }

enum { ROOM = 8 << 20, BEFORE = 64, MARK = 0xc3, MOST_ROWS = 4096 };

/* Memory to lend from, with a page behind it that nothing may touch. */
typedef struct arena {
    uint8_t *end;
    uint8_t *lent;
} arena;

static arena new_arena(void) {
    size_t page = (size_t)sysconf(_SC_PAGESIZE);
    uint8_t *start = mmap(NULL, ROOM + page, PROT_READ | PROT_WRITE, MAP_PRIVATE | MAP_ANONYMOUS, -1, 0);
    if (start == MAP_FAILED || mprotect(start + ROOM, page, PROT_NONE) != 0) fail("no memory");
    arena made = {start + ROOM, start + ROOM};
    return made;
}

static void *lend(arena *from, size_t length) {
    if (length > ROOM - BEFORE) fail("a request is too long");
    from->lent = from->end - length;
    memset(from->lent - BEFORE, MARK, BEFORE);
    return from->lent;
}

static void look_before(const arena *of) {
    for (size_t at = 0; at < BEFORE; at++)
        if (of->lent[at - BEFORE] != MARK) fail("a byte before the lent memory changed");
}

/* The first byte is the old one, and each is the one before it. */
static void look_old(const uint8_t *bytes, size_t count, uint8_t old) {
    if (count > 0 && (bytes[0] != old || memcmp(bytes, bytes + 1, count - 1) != 0)) fail("a byte behind the text changed");
}

/* A file that the library only reads. */
typedef struct file {
    arena memory;
    uint8_t *copy;
    size_t length;
} file;

static file new_file(void) {
    file made = {new_arena(), malloc(ROOM), 0};
    if (made.copy == NULL) fail("no memory");
    return made;
}

static void take_file(file *into, size_t length) {
    void *bytes = lend(&into->memory, length);
    into->length = length;
    take(bytes, length);
    memcpy(into->copy, bytes, length);
}

static void look_unchanged(const file *of) {
    look_before(&of->memory);
    if (memcmp(of->copy, of->memory.lent, of->length) != 0) fail("a file that is only read changed");
}

/* Rows as they stand in requests and answers: four u32 each. */
static uint32_t numbers[MOST_ROWS][4];

static olbiothar_frame *take_rows(arena *from, size_t count) {
    if (count > MOST_ROWS) fail("a request has too many rows");
    olbiothar_frame *rows = lend(from, count * sizeof *rows);
    take(numbers, count * sizeof *numbers);
    for (size_t k = 0; k < count; k++)
        rows[k] = (olbiothar_frame){(uint8_t)numbers[k][0], numbers[k][1], numbers[k][2], numbers[k][3]};
    return rows;
}

static void give_rows(const olbiothar_frame *rows, size_t count) {
    for (size_t k = 0; k < count; k++) {
        numbers[k][0] = rows[k].task;
        numbers[k][1] = rows[k].release;
        numbers[k][2] = rows[k].deadline;
        numbers[k][3] = rows[k].start;
    }
    give(numbers, count * sizeof *numbers);
}

static void give_answer(olbiothar_answer answer) {
    give_u32(answer.number);
    give_u64(answer.place);
}

static file plan, table, text;
static arena row_memory, buffer_memory, station_memory;
static olbiothar_station *station;

static void forget(void) { memset(station, 0, sizeof *station); }

static void make(void) {
    size_t plan_length = take_u32(), row_count = take_u32(), room = take_u32();
    uint8_t edition = take_u8();
    take_file(&plan, plan_length);
    olbiothar_frame *rows = take_rows(&row_memory, row_count);
    uint8_t *buffer = lend(&buffer_memory, room);
    take(buffer, room);
    olbiothar_answer answer = olbiothar_make(plan.memory.lent, plan_length, edition, rows, row_count, buffer, room);
    look_unchanged(&plan);
    look_before(&row_memory);
    look_before(&buffer_memory);
    give_answer(answer);
    give_rows(rows, row_count);
    give(buffer, room);
}

static void check(void) {
    size_t plan_length = take_u32(), table_length = take_u32(), row_count = take_u32();
    take_file(&plan, plan_length);
    take_file(&table, table_length);
    olbiothar_frame *rows = take_rows(&row_memory, row_count);
    olbiothar_answer answer =
        olbiothar_check(plan.memory.lent, plan_length, table.memory.lent, table_length, rows, row_count);
    look_unchanged(&plan);
    look_unchanged(&table);
    look_before(&row_memory);
    give_answer(answer);
    give_rows(rows, row_count);
}

static void begin(void) {
    static olbiothar_station before;
    olbiothar_starting starting;
    size_t plan_length = take_u32(), table_length = take_u32();
    take_file(&plan, plan_length);
    take_file(&table, table_length);
    take(starting.modes, sizeof starting.modes);
    take(starting.given, sizeof starting.given);
    before = *station;
    olbiothar_answer answer =
        olbiothar_begin(plan.memory.lent, plan_length, table.memory.lent, table_length, starting, station);
    look_unchanged(&plan);
    look_unchanged(&table);
    look_before(&station_memory);
    if (answer.number != OLBIOTHAR_DONE && !same_station(&before, station)) fail("a refused beginning changed the station");
    give_answer(answer);
}

static void tick(void) {
    olbiothar_input input;
    take(input.results, sizeof input.results);
    take(input.given, sizeof input.given);
    take(input.modes, sizeof input.modes);
    take(input.changed, sizeof input.changed);
    olbiothar_tick_answer tick = olbiothar_tick(station, input);
    look_before(&station_memory);
    give_answer(tick.answer);
    give_u8(tick.row.kind);
    give_u8(tick.row.sender);
    give_u32(tick.row.deadline);
    give_u32(tick.row.start);
    give_u32(tick.row.stop);
    for (size_t node = 0; node < OLBIOTHAR_NODES; node++)
        give(station->nodes[node].shown, sizeof station->nodes[node].shown);
}

static void give_time(void) {
    olbiothar_time_now time = olbiothar_time(station);
    give_u8(time.begun);
    give_u32(time.clock);
    give_u32(time.period);
}

static void give_modules(void) {
    for (uint8_t module = 0; module < OLBIOTHAR_MODULES; module++) {
        olbiothar_module_now now = olbiothar_module(station, module);
        give_u8(now.there);
        give_u8(now.node);
        give_u8(now.mode);
        give_u32(now.age);
    }
}

static void give_tasks(void) {
    for (uint8_t task = 0; task < OLBIOTHAR_TASKS; task++) {
        olbiothar_task_now now = olbiothar_task(station, task);
        give_u8(now.there);
        give_u8(now.home);
        give_u8(now.awaits);
        give_u32(now.left);
    }
}

static void now(void) {
    static olbiothar_station before;
    before = *station;
    give_time();
    give_modules();
    give_tasks();
    if (!same_station(&before, station)) fail("a station that is only read changed");
}

static void sheet(void) {
    size_t plan_length = take_u32(), table_length = take_u32(), room = take_u32();
    uint8_t old = take_u8();
    take_file(&plan, plan_length);
    take_file(&table, table_length);
    uint8_t *buffer = lend(&buffer_memory, room);
    memset(buffer, old, room);
    olbiothar_sheet_answer answer =
        olbiothar_sheet(plan.memory.lent, plan_length, table.memory.lent, table_length, buffer, room);
    look_unchanged(&plan);
    look_unchanged(&table);
    look_before(&buffer_memory);
    if (answer.length > room) fail("a text is longer than its room");
    look_old(buffer + answer.length, room - answer.length, old);
    give_answer(answer.checked);
    give_u64(answer.length);
    give(buffer, answer.length);
}

static void sheet_table(void) {
    size_t text_length = take_u32(), room = take_u32();
    take_file(&text, text_length);
    uint8_t *buffer = lend(&buffer_memory, room);
    take(buffer, room);
    olbiothar_answer answer = olbiothar_sheet_table(text.memory.lent, text_length, buffer, room);
    look_unchanged(&text);
    look_before(&buffer_memory);
    give_answer(answer);
    give(buffer, room);
}

static void plan_text(void) {
    size_t plan_length = take_u32(), room = take_u32();
    uint8_t old = take_u8();
    take_file(&plan, plan_length);
    uint8_t *buffer = lend(&buffer_memory, room);
    memset(buffer, old, room);
    olbiothar_answer answer = olbiothar_plan_text(plan.memory.lent, plan_length, buffer, room);
    look_unchanged(&plan);
    look_before(&buffer_memory);
    size_t length = answer.number == OLBIOTHAR_DONE ? answer.place : 0;
    if (length > room) fail("a text is longer than its room");
    look_old(buffer + length, room - length, old);
    give_answer(answer);
    give(buffer, length);
}

static void text_plan(void) {
    size_t text_length = take_u32(), room = take_u32();
    take_file(&text, text_length);
    uint8_t *buffer = lend(&buffer_memory, room);
    take(buffer, room);
    olbiothar_plan_answer read = olbiothar_text_plan(text.memory.lent, text_length, buffer, room);
    look_unchanged(&text);
    look_before(&buffer_memory);
    give_answer(read.answer);
    give_u32(read.reason);
    give(buffer, room);
}

static void words(void) {
    uint8_t of_a_reason = take_u8();
    uint32_t number = take_u32();
    size_t room = take_u32();
    uint8_t *buffer = lend(&buffer_memory, room);
    take(buffer, room);
    uint64_t length = of_a_reason ? olbiothar_reason_words(number, buffer, room) : olbiothar_words(number, buffer, room);
    look_before(&buffer_memory);
    give_u64(length);
    give(buffer, room);
}

static void answer_to(int asked) {
    switch (asked) {
    case 'M': make(); break;
    case 'C': check(); break;
    case 'B': begin(); break;
    case 'F': forget(); break;
    case 'T': tick(); break;
    case 'N': now(); break;
    case 'S': sheet(); break;
    case 'R': sheet_table(); break;
    case 'P': plan_text(); break;
    case 'Q': text_plan(); break;
    case 'W': words(); break;
    default: fail("an unknown request");
    }
}

int main(void) {
    plan = new_file();
    table = new_file();
    text = new_file();
    row_memory = new_arena();
    buffer_memory = new_arena();
    station_memory = new_arena();
    station = lend(&station_memory, sizeof *station);
    forget();
    for (int asked; (asked = getchar()) != EOF;) {
        answer_to(asked);
        if (fflush(stdout) != 0) fail("an answer cannot be written");
    }
    return 0;
}
