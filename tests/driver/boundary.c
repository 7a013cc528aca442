/* What the header promises of the boundary itself: parts that are not lent, editions, a sheet and a plan's text there and back, words, a
 * station's fields where the header has them and what is said of them, and a station that holds any bytes. The word on the command line is
 * the plan of job A.
 *
 * That the structs have the sizes, alignments and offsets of the library is asserted in the header, which is compiled here.
 */
#include "olbiothar.h"
#include "same.h"

#include <stdio.h>
#include <stdlib.h>
#include <string.h>

static void holds(int it_does, const char *what, int line) {
    if (it_does) return;
    fprintf(stderr, "boundary.c:%d: not so: %s\n", line, what);
    exit(1);
}

#define HOLDS(what) holds(what, #what, __LINE__)

enum { LENGTH = 75, MODE = 1, WORST = 1000, FRAME_STARTS = 19904, FRAME_STOPS = 20000, VALUE = 7 };

static uint8_t plan[256], table[LENGTH], text[OLBIOTHAR_LONGEST_SHEET + 1];
static size_t plan_length;
static olbiothar_frame rows[OLBIOTHAR_FRAMES];
static const olbiothar_starting no_modes;
static const olbiothar_starting two_modes = {.modes = {MODE, 2}, .given = {1, 1}};

static int is(olbiothar_answer answer, uint32_t number, uint64_t place) {
    return answer.number == number && answer.place == place;
}

static void read_plan(const char *path) {
    FILE *file = fopen(path, "rb");
    HOLDS(file != NULL);
    plan_length = fread(plan, 1, sizeof plan, file);
    HOLDS(plan_length > 0 && plan_length < sizeof plan);
    fclose(file);
}

/* What a plan prints with no table. */
static int prints(const uint8_t *of, size_t length, uint8_t *into, size_t room, uint32_t number, uint64_t place, const char *line) {
    olbiothar_sheet_answer sheet = olbiothar_sheet(of, length, NULL, 0, into, room);
    return is(sheet.checked, number, place) && sheet.length == strlen(line) &&
           (sheet.length == 0 || memcmp(into, line, sheet.length) == 0);
}

/* NULL with a length of 0, for every lent part of every function. */
static void nothing_lent(void) {
    for (uint8_t edition = OLBIOTHAR_BASIC; edition <= OLBIOTHAR_CONSUMERS; edition++) {
        HOLDS(is(olbiothar_make(NULL, 0, edition, rows, OLBIOTHAR_FRAMES, NULL, 0), OLBIOTHAR_BAD_RECORDS, 0));
        HOLDS(is(olbiothar_make(plan, plan_length, edition, NULL, 0, NULL, 0), OLBIOTHAR_TOO_FEW_ROWS, OLBIOTHAR_FRAMES));
        HOLDS(is(olbiothar_make(plan, plan_length, edition, NULL, 0, table, LENGTH), OLBIOTHAR_TOO_FEW_ROWS, OLBIOTHAR_FRAMES));
    }
    HOLDS(is(olbiothar_check(NULL, 0, NULL, 0, NULL, 0), OLBIOTHAR_TOO_FEW_ROWS, OLBIOTHAR_FRAMES));
    HOLDS(is(olbiothar_check(NULL, 0, NULL, 0, rows, OLBIOTHAR_FRAMES), OLBIOTHAR_BAD_RECORDS, 0));
    HOLDS(is(olbiothar_check(plan, plan_length, NULL, 0, rows, OLBIOTHAR_FRAMES), OLBIOTHAR_BAD_TABLE_RECORDS, 0));
    static olbiothar_station unbegun;
    HOLDS(is(olbiothar_begin(NULL, 0, NULL, 0, no_modes, &unbegun), OLBIOTHAR_BAD_RECORDS, 0));
    HOLDS(is(olbiothar_begin(plan, plan_length, NULL, 0, two_modes, &unbegun), OLBIOTHAR_BAD_TABLE_RECORDS, 0));
    HOLDS(prints(NULL, 0, NULL, 0, OLBIOTHAR_BUFFER_TOO_SHORT, OLBIOTHAR_LONGEST_SHEET, ""));
    HOLDS(prints(NULL, 0, text, sizeof text, OLBIOTHAR_BAD_RECORDS, 0, "refused 1 at 0\n"));
    HOLDS(prints(plan, plan_length, text, sizeof text, OLBIOTHAR_BAD_TABLE_RECORDS, 0, "refused 20 at 0\n"));
    HOLDS(is(olbiothar_sheet_table(NULL, 0, NULL, 0), OLBIOTHAR_UNREADABLE, 1));
    HOLDS(is(olbiothar_sheet_table(NULL, 0, table, LENGTH), OLBIOTHAR_UNREADABLE, 1));
    HOLDS(is(olbiothar_sheet_table((const uint8_t *)"cycle 0", 7, NULL, 0), OLBIOTHAR_BUFFER_TOO_SHORT, 9));
    HOLDS(is(olbiothar_plan_text(NULL, 0, NULL, 0), OLBIOTHAR_BAD_RECORDS, 0));
    HOLDS(is(olbiothar_plan_text(NULL, 0, text, sizeof text), OLBIOTHAR_BAD_RECORDS, 0));
    HOLDS(is(olbiothar_text_plan(NULL, 0, NULL, 0).answer, OLBIOTHAR_UNREADABLE, 1));
    HOLDS(olbiothar_text_plan(NULL, 0, table, LENGTH).reason == OLBIOTHAR_BUS_EXPECTED);
    HOLDS(olbiothar_words(OLBIOTHAR_NO_ROOM, NULL, 0) == 0 && olbiothar_reason_words(OLBIOTHAR_BUS_EXPECTED, NULL, 0) == 0);
    /* A caller asks for the bytes needed, and lends so many. */
    olbiothar_answer asked = olbiothar_make(plan, plan_length, OLBIOTHAR_BASIC, rows, OLBIOTHAR_FRAMES, NULL, 0);
    HOLDS(is(asked, OLBIOTHAR_BUFFER_TOO_SHORT, LENGTH));
    HOLDS(is(olbiothar_make(plan, plan_length, OLBIOTHAR_BASIC, rows, OLBIOTHAR_FRAMES, table, asked.place), OLBIOTHAR_DONE, LENGTH));
}

/* A number that no edition has is refused behind 19 and before all others: with 19 what is lent stays as it was, with 62 the rows are zero
 * rows and the bytes stay. */
static void no_editions(void) {
    static olbiothar_frame lent[OLBIOTHAR_FRAMES], old[OLBIOTHAR_FRAMES], zero[OLBIOTHAR_FRAMES];
    static uint8_t made[OLBIOTHAR_LONGEST_TABLE], old_table[OLBIOTHAR_LONGEST_TABLE];
    memset(old, 0xa5, sizeof old);
    memset(made, 0xa5, sizeof made), memset(old_table, 0xa5, sizeof old_table);
    for (unsigned edition = OLBIOTHAR_CONSUMERS + 1; edition <= UINT8_MAX; edition++) {
        uint8_t number = (uint8_t)edition;
        memset(lent, 0xa5, sizeof lent);
        HOLDS(is(olbiothar_make(plan, plan_length, number, lent, 1, made, 1), OLBIOTHAR_TOO_FEW_ROWS, OLBIOTHAR_FRAMES));
        HOLDS(is(olbiothar_make(NULL, 0, number, NULL, 0, NULL, 0), OLBIOTHAR_TOO_FEW_ROWS, OLBIOTHAR_FRAMES));
        HOLDS(memcmp(lent, old, sizeof lent) == 0);
        HOLDS(is(olbiothar_make(plan, plan_length, number, lent, OLBIOTHAR_FRAMES, made, sizeof made), OLBIOTHAR_NO_EDITION, edition));
        HOLDS(is(olbiothar_make(NULL, 0, number, lent, OLBIOTHAR_FRAMES, NULL, 0), OLBIOTHAR_NO_EDITION, edition));
        HOLDS(memcmp(lent, zero, sizeof lent) == 0 && memcmp(made, old_table, sizeof made) == 0);
    }
}

static int shows(const olbiothar_station *station, uint64_t own, uint64_t other) {
    return station->nodes[0].shown[0] == own && station->nodes[1].shown[0] == other;
}

/* Job A whose consumer runs twice in a cycle, in the edition for consumers: of mode 1 the message at 40000 is read by none, and has no row.
 * It passes as what its first byte says, and not as the other; it is printed and read back; at 40000 the consumer's node shows the value of
 * 20000, and at 60000, when its consumer runs again, that of 60000. */
static void read_by_consumers(void) {
    enum { READ = 61, RATE_FROM_END = 6 };
    static const char cycle[] = "cycle 60000 consumers  # ticks of one microsecond\n";
    static const uint32_t windows[][2] = {{1000, 20000}, {1000, 30000}, {41000, 60000}};
    static uint8_t often[sizeof plan], made[READ], other[READ], back[OLBIOTHAR_LONGEST_TABLE];
    static olbiothar_station station;
    memcpy(often, plan, plan_length);
    often[plan_length - RATE_FROM_END] = 2;
    HOLDS(is(olbiothar_make(often, plan_length, OLBIOTHAR_CONSUMERS, rows, OLBIOTHAR_FRAMES, made, READ - 1), OLBIOTHAR_BUFFER_TOO_SHORT, READ));
    HOLDS(is(olbiothar_make(often, plan_length, OLBIOTHAR_CONSUMERS, rows, OLBIOTHAR_FRAMES, made, READ), OLBIOTHAR_DONE, READ));
    for (size_t k = 0; k < 3; k++) HOLDS(rows[k].release == windows[k][0] && rows[k].deadline == windows[k][1]);
    HOLDS(made[0] == 20 && rows[3].deadline == 0);
    HOLDS(is(olbiothar_check(often, plan_length, made, READ, rows, OLBIOTHAR_FRAMES), OLBIOTHAR_DONE, 0));
    memcpy(other, made, READ);
    other[0] = 16;
    HOLDS(is(olbiothar_check(often, plan_length, other, READ, rows, OLBIOTHAR_FRAMES), OLBIOTHAR_WRONG_HEADER, 0));
    olbiothar_sheet_answer sheet = olbiothar_sheet(often, plan_length, made, READ, text, sizeof text);
    HOLDS(is(sheet.checked, OLBIOTHAR_DONE, 0));
    HOLDS(sheet.length > strlen(cycle) && memcmp(text, cycle, strlen(cycle)) == 0);
    HOLDS(is(olbiothar_sheet_table(text, sheet.length, back, sizeof back), OLBIOTHAR_DONE, READ));
    HOLDS(memcmp(back, made, READ) == 0);
    HOLDS(is(olbiothar_begin(often, plan_length, made, READ, two_modes, &station), OLBIOTHAR_DONE, 0));
    for (uint32_t time = 0; time <= 60000; time++) {
        olbiothar_input input = {.results = {5 + time / 20000, 1}};
        input.given[0] = time % 20000 == WORST, input.given[1] = time % 30000 == WORST;
        HOLDS(is(olbiothar_tick(&station, input).answer, OLBIOTHAR_DONE, 0));
        HOLDS(time >= 20000 || shows(&station, 0, 0));
        HOLDS(time < 20000 || time >= 40000 || shows(&station, 5, 5));
        HOLDS(time < 40000 || time >= 60000 || shows(&station, 6, 5));
    }
    HOLDS(shows(&station, 7, 7));
}

/* Job A's table, printed and read back. */
static void printed_and_read(void) {
    static const char cycle[] = "cycle 60000  # ticks of one microsecond\n";
    static uint8_t back[OLBIOTHAR_LONGEST_TABLE];
    olbiothar_sheet_answer sheet = olbiothar_sheet(plan, plan_length, table, LENGTH, text, sizeof text);
    HOLDS(is(sheet.checked, OLBIOTHAR_DONE, 0));
    HOLDS(sheet.length > strlen(cycle) && memcmp(text, cycle, strlen(cycle)) == 0);
    HOLDS(is(olbiothar_sheet_table(text, sheet.length, back, sizeof back), OLBIOTHAR_DONE, LENGTH));
    HOLDS(memcmp(back, table, LENGTH) == 0);
}

/* Job A as text, printed and read back; both functions say how many bytes they need. */
static void written_and_read(void) {
    static const char bus[] = "bus kbit/s 1000 overhead-bytes 8 least-payload 0 largest-payload 254 gap-bits 10 resolution 1  # record 0\n";
    static uint8_t back[sizeof plan];
    olbiothar_answer asked = olbiothar_plan_text(plan, plan_length, NULL, 0);
    HOLDS(asked.number == OLBIOTHAR_BUFFER_TOO_SHORT && asked.place < sizeof text);
    memset(text, '?', sizeof text);
    HOLDS(is(olbiothar_plan_text(plan, plan_length, text, asked.place - 1), OLBIOTHAR_BUFFER_TOO_SHORT, asked.place));
    HOLDS(text[0] == '?');
    HOLDS(is(olbiothar_plan_text(plan, plan_length, text, asked.place), OLBIOTHAR_DONE, asked.place));
    HOLDS(memcmp(text, bus, strlen(bus)) == 0 && text[asked.place - 1] == '\n' && text[asked.place] == '?');
    HOLDS(is(olbiothar_text_plan(text, asked.place, NULL, 0).answer, OLBIOTHAR_BUFFER_TOO_SHORT, plan_length));
    HOLDS(is(olbiothar_text_plan(text, asked.place, back, plan_length - 1).answer, OLBIOTHAR_BUFFER_TOO_SHORT, plan_length));
    HOLDS(back[0] == 0);
    olbiothar_plan_answer read = olbiothar_text_plan(text, asked.place, back, plan_length);
    HOLDS(is(read.answer, OLBIOTHAR_DONE, plan_length) && read.reason == OLBIOTHAR_NO_REASON);
    HOLDS(memcmp(back, plan, plan_length) == 0 && back[plan_length] == 0);
    HOLDS(is(olbiothar_text_plan(text, OLBIOTHAR_LONGEST_SHEET, back, sizeof back).answer, OLBIOTHAR_UNREADABLE, 14));
    HOLDS(is(olbiothar_text_plan(text, sizeof text, back, sizeof back).answer, OLBIOTHAR_TEXT_TOO_LONG, OLBIOTHAR_LONGEST_SHEET));
}

typedef uint64_t words_of(uint32_t number, uint8_t *text, size_t text_length);
typedef char wording[OLBIOTHAR_LONGEST_WORDS];

/* Words of one sort, in no more room than they ask for: printed letters, a zero byte, and what stood behind it. */
static void put_words(words_of *words, uint32_t number, wording into) {
    static uint8_t lent[OLBIOTHAR_LONGEST_WORDS + 1];
    memset(lent, '?', sizeof lent);
    HOLDS(words(number, lent, OLBIOTHAR_LONGEST_WORDS - 1) == 0 && lent[0] == '?');
    uint64_t length = words(number, lent, OLBIOTHAR_LONGEST_WORDS);
    HOLDS(length < OLBIOTHAR_LONGEST_WORDS && lent[length] == 0 && lent[length + 1] == '?');
    for (uint64_t at = 0; at < length; at++) HOLDS(lent[at] >= ' ' && lent[at] <= '~');
    memcpy(into, lent, OLBIOTHAR_LONGEST_WORDS);
}

/* Whether a number has other words than a number that nothing has. */
static int is_worded(words_of *words, uint32_t number) {
    wording own, none;
    put_words(words, number, own);
    put_words(words, UINT32_MAX, none);
    return strcmp(own, none) != 0;
}

static int is_refusal(uint32_t number) {
    return (number >= OLBIOTHAR_BAD_RECORDS && number <= OLBIOTHAR_BUFFER_TOO_SHORT) ||
           (number >= OLBIOTHAR_TOO_FEW_ROWS && number <= OLBIOTHAR_NO_GAP_AT_END) ||
           (number >= OLBIOTHAR_NOT_BEGUN && number <= OLBIOTHAR_CHANGE_NOT_ALLOWED) ||
           (number >= OLBIOTHAR_UNREADABLE && number <= OLBIOTHAR_NO_EDITION);
}

static int is_reason(uint32_t number) {
    return (number >= OLBIOTHAR_BUS_EXPECTED && number <= OLBIOTHAR_END_OF_LINE_EXPECTED) ||
           (number >= OLBIOTHAR_WORD_EXPECTED && number < OLBIOTHAR_WORD_EXPECTED + 24);
}

/* Every number of a refusal or a reason has words, and beside 0 no other. */
static void worded(void) {
    wording words;
    for (uint32_t number = 1; number < 300; number++) {
        HOLDS(is_worded(olbiothar_words, number) == is_refusal(number));
        HOLDS(is_worded(olbiothar_reason_words, number) == is_reason(number));
    }
    put_words(olbiothar_words, OLBIOTHAR_NO_ROOM, words);
    HOLDS(strncmp(words, "no place for a frame", 20) == 0);
    put_words(olbiothar_words, OLBIOTHAR_NO_EDITION, words);
    HOLDS(strncmp(words, "no edition of this number", 25) == 0);
    put_words(olbiothar_reason_words, OLBIOTHAR_WORD_EXPECTED + 21, words);
    HOLDS(strcmp(words, "rate expected") == 0);
}

/* Each field of a station that has begun with job A, read where the header has it; what is not named is 0. */
static olbiothar_station begun_by_hand(void) {
    olbiothar_station s;
    memset(&s, 0, sizeof s);
    s.fixed.modules.count = 2, s.fixed.modules.sites[1] = 1, s.fixed.modules.sending[0] = 1;
    s.fixed.modes.count = 3, s.fixed.modes.homes[2] = 1;
    for (size_t mode = 0; mode < 3; mode++) s.fixed.modes.periods[mode] = s.fixed.modes.switches[mode] = 60000;
    s.fixed.tasks.count = 2, s.fixed.tasks.homes[1] = 1;
    for (size_t task = 0; task < 2; task++) s.fixed.tasks.sizes[task] = 4, s.fixed.tasks.worsts[task] = WORST;
    s.fixed.controls.count = 1, s.fixed.controls.stops[0] = 72;
    s.fixed.period = 60000, s.fixed.pairs = 4;
    s.runs[0] = 30000, s.runs[OLBIOTHAR_TASKS] = 20000, s.runs[2 * OLBIOTHAR_TASKS + 1] = 60000;
    /* Mode 1 has the messages at 20000, 40000 and 60000, mode 0 those at 30000 and 60000. */
    const uint32_t deadlines[] = {20000, 30000, 40000, 60000}, modes[] = {2, 1, 2, 3};
    for (size_t pair = 0; pair < 4; pair++) {
        s.pair_deadlines[pair] = deadlines[pair];
        s.pair_stops[pair] = pair < 3 ? deadlines[pair] : 59990;
        s.pair_starts[pair] = s.pair_stops[pair] - 96;
        s.pair_modes[pair] = modes[pair];
    }
    s.play.running[0] = MODE, s.play.running[1] = 2;
    return s;
}

/* A tick; both tasks get their result at time 1. */
static olbiothar_tick_answer play(olbiothar_station *station, uint32_t time) {
    olbiothar_input input = {.results = {VALUE, VALUE + 1}, .given = {time == 1, time == 1}};
    return olbiothar_tick(station, input);
}

static void fields(olbiothar_station *station) {
    olbiothar_station by_hand = begun_by_hand();
    memset(station, 0xff, sizeof *station);
    HOLDS(is(olbiothar_begin(plan, plan_length, table, LENGTH, two_modes, station), OLBIOTHAR_DONE, 0));
    HOLDS(same_station(station, &by_hand));
    for (uint32_t time = 0; time < FRAME_STARTS; time++) HOLDS(is(play(station, time).answer, OLBIOTHAR_DONE, 0));
    olbiothar_station sent = *station;
    olbiothar_row row = play(&sent, FRAME_STARTS).row;
    HOLDS(row.kind == 18 && row.sender == 0 && row.deadline == FRAME_STOPS && row.start == FRAME_STARTS && row.stop == FRAME_STOPS);
    for (uint32_t time = FRAME_STARTS + 1; time <= FRAME_STOPS; time++) HOLDS(is(play(&sent, time).answer, OLBIOTHAR_DONE, 0));
    by_hand.play.clock = FRAME_STOPS + 1;
    for (size_t module = 0; module < OLBIOTHAR_MODULES; module++) by_hand.play.ages[module] = FRAME_STOPS + 1;
    by_hand.play.bytes[0] = MODE;
    by_hand.play.out[0] = by_hand.play.loads[0] = VALUE, by_hand.play.out[1] = VALUE + 1;
    by_hand.play.givens[1] = by_hand.play.full[0] = 1;
    /* The frames have landed on every node but their sender's, 0. */
    by_hand.nodes[0].shown[0] = VALUE;
    for (size_t node = 1; node < OLBIOTHAR_NODES; node++) {
        by_hand.play.held[node * OLBIOTHAR_MODULES] = MODE;
        by_hand.nodes[node].landed[0] = by_hand.nodes[node].shown[0] = VALUE;
    }
    HOLDS(same_station(&sent, &by_hand));
}

static void begin_refused(olbiothar_station *station) {
    HOLDS(is(olbiothar_begin(plan, plan_length - 1, table, LENGTH, two_modes, station), OLBIOTHAR_BAD_RECORDS, plan_length - 1));
    HOLDS(is(olbiothar_begin(plan, plan_length, table, LENGTH - 1, two_modes, station), OLBIOTHAR_BAD_TABLE_RECORDS, LENGTH - 1));
    HOLDS(is(olbiothar_begin(plan, plan_length, table, LENGTH, no_modes, station), OLBIOTHAR_NOT_BEGUN, 0));
}

/* A refused beginning leaves a station that has begun, and whatever bytes stand where there is none. */
static void refused_beginnings(const olbiothar_station *station) {
    static olbiothar_station kept, any;
    kept = *station;
    begin_refused(&kept);
    HOLDS(same_station(&kept, station));
    memset(&any, 0xa5, sizeof any);
    memset(&kept, 0xa5, sizeof kept);
    begin_refused(&kept);
    HOLDS(memcmp(&kept, &any, sizeof any) == 0);
}

static int time_is(const olbiothar_station *station, uint8_t begun, uint32_t clock, uint32_t period) {
    olbiothar_time_now now = olbiothar_time(station);
    return now.begun == begun && now.clock == clock && now.period == period;
}

static int module_is(const olbiothar_station *station, uint8_t module, uint8_t there, uint8_t node, uint8_t mode, uint32_t age) {
    olbiothar_module_now now = olbiothar_module(station, module);
    return now.there == there && now.node == node && now.mode == mode && now.age == age;
}

static int task_is(const olbiothar_station *station, uint8_t task, uint8_t there, uint8_t home, uint8_t awaits, uint32_t left) {
    olbiothar_task_now now = olbiothar_task(station, task);
    return now.there == there && now.home == home && now.awaits == awaits && now.left == left;
}

/* Of a station that has not begun nothing is said; of one that has begun with job A what is awaited, and until when. */
static void accessors(void) {
    static olbiothar_station station;
    HOLDS(time_is(&station, 0, 0, 0));
    for (unsigned place = 0; place < 256; place++)
        HOLDS(module_is(&station, (uint8_t)place, 0, 0, 0, 0) && task_is(&station, (uint8_t)place, 0, 0, 0, 0));
    HOLDS(is(olbiothar_begin(plan, plan_length, table, LENGTH, two_modes, &station), OLBIOTHAR_DONE, 0));
    HOLDS(time_is(&station, 1, 0, 60000));
    HOLDS(module_is(&station, 0, 1, 0, MODE, 0) && module_is(&station, 1, 1, 1, 2, 0) && module_is(&station, 2, 0, 0, 0, 0));
    HOLDS(task_is(&station, 0, 1, 0, 0, 0) && task_is(&station, 1, 1, 1, 0, 0) && task_is(&station, 2, 0, 0, 0, 0));
    const olbiothar_input nothing = {.given = {0}}, first = {.results = {VALUE}, .given = {1}};
    for (uint32_t age = 1; age <= WORST; age++) {
        HOLDS(is(olbiothar_tick(&station, nothing).answer, OLBIOTHAR_DONE, 0));
        HOLDS(time_is(&station, 1, age, 60000) && module_is(&station, 0, 1, 0, MODE, age));
        HOLDS(task_is(&station, 0, 1, 0, 1, WORST - age) && task_is(&station, 1, 1, 1, 1, WORST - age));
    }
    HOLDS(is(olbiothar_tick(&station, nothing).answer, OLBIOTHAR_RESULT_OVERDUE, 0));
    HOLDS(is(olbiothar_tick(&station, first).answer, OLBIOTHAR_RESULT_OVERDUE, 1));
    const olbiothar_input both = {.results = {VALUE, VALUE}, .given = {1, 1}};
    HOLDS(is(olbiothar_tick(&station, both).answer, OLBIOTHAR_DONE, 0));
    HOLDS(task_is(&station, 0, 1, 0, 0, 0) && task_is(&station, 1, 1, 1, 0, 0));
    HOLDS(is(olbiothar_tick(&station, first).answer, OLBIOTHAR_NOT_AWAITED, 0));
    /* A run that may take its whole period: at its last tick, which is also the release of the next, its result is due. */
    station.fixed.tasks.worsts[0] = station.play.ages[0] = FRAME_STOPS;
    station.play.givens[0] = 0;
    HOLDS(task_is(&station, 0, 1, 0, 1, 0));
    HOLDS(is(olbiothar_tick(&station, nothing).answer, OLBIOTHAR_RESULT_OVERDUE, 0));
    HOLDS(is(olbiothar_tick(&station, first).answer, OLBIOTHAR_DONE, 0));
    HOLDS(task_is(&station, 0, 1, 0, 1, FRAME_STOPS - 1));
}

/* Every byte but 0 sets a flag, and a tick stores 0 or 1. `station` stands where the data frame of task 0 starts: whether it has a value
 * is by the modes of its pair; what the bus has of task 1 stays. */
static void flags(const olbiothar_station *station) {
    olbiothar_station full = *station;
    full.play.full[0] = full.play.full[1] = 1;
    olbiothar_station one = full;
    HOLDS(is(play(&one, FRAME_STARTS).answer, OLBIOTHAR_DONE, 0));
    for (unsigned byte = 2; byte < 256; byte++) {
        olbiothar_station other = full;
        other.fixed.modules.sending[0] = other.play.givens[1] = other.play.full[0] = other.play.full[1] = (uint8_t)byte;
        HOLDS(is(play(&other, FRAME_STARTS).answer, OLBIOTHAR_DONE, 0));
        HOLDS(same_state(&one, &other));
        HOLDS(other.fixed.modules.sending[0] == byte);
    }
    olbiothar_station empty = full;
    empty.pair_modes[0] = 0;
    HOLDS(is(play(&empty, FRAME_STARTS).answer, OLBIOTHAR_DONE, 0));
    HOLDS(one.play.full[0] == 1 && empty.play.full[0] == 0);
    HOLDS(one.play.full[1] == 1 && empty.play.full[1] == 1);
}

/* What lies behind the pairs is no number of the station: a tick does not look at it. The last pair, and how many there are, are. */
static void behind_the_pairs(const olbiothar_station *station) {
    const size_t pairs = station->fixed.pairs, rest = OLBIOTHAR_FRAMES - pairs;
    olbiothar_station clean = *station, other = *station;
    memset(other.pair_tasks + pairs, 0xff, rest * sizeof *other.pair_tasks);
    memset(other.pair_deadlines + pairs, 0xff, rest * sizeof *other.pair_deadlines);
    memset(other.pair_starts + pairs, 0xff, rest * sizeof *other.pair_starts);
    memset(other.pair_stops + pairs, 0xff, rest * sizeof *other.pair_stops);
    memset(other.pair_modes + pairs, 0xff, rest * sizeof *other.pair_modes);
    olbiothar_station more = other, last = other;
    HOLDS(is(play(&clean, FRAME_STARTS).answer, OLBIOTHAR_DONE, 0));
    HOLDS(is(play(&other, FRAME_STARTS).answer, OLBIOTHAR_DONE, 0));
    HOLDS(same_state(&clean, &other));
    more.fixed.pairs++;
    HOLDS(is(play(&more, FRAME_STARTS).answer, OLBIOTHAR_NOT_BEGUN, 0));
    more = *station, more.fixed.pairs = OLBIOTHAR_FRAMES;
    HOLDS(is(play(&more, FRAME_STARTS).answer, OLBIOTHAR_DONE, 0));
    more = *station, more.fixed.pairs = OLBIOTHAR_FRAMES + 1;
    HOLDS(is(play(&more, FRAME_STARTS).answer, OLBIOTHAR_NOT_BEGUN, 0));
    last.pair_starts[pairs - 1] = last.fixed.period + 1;
    HOLDS(is(play(&last, FRAME_STARTS).answer, OLBIOTHAR_NOT_BEGUN, 0));
}

static uint64_t seed = 1;

static uint8_t any_byte(void) {
    seed = seed * 6364136223846793005u + 1442695040888963407u;
    return (uint8_t)(seed >> 56);
}

/* Of a station that holds any bytes the same is said, by its fields; one that a tick takes has begun. */
static void said_of_any(const olbiothar_station *station, olbiothar_answer answer) {
    const uint8_t begun = station->fixed.period > 0;
    HOLDS(begun || is(answer, OLBIOTHAR_NOT_BEGUN, 0));
    HOLDS(time_is(station, begun, begun ? station->play.clock : 0, station->fixed.period));
    for (unsigned place = 0; place < 256; place++) {
        olbiothar_task_now task = olbiothar_task(station, (uint8_t)place);
        HOLDS(olbiothar_module(station, (uint8_t)place).there == (begun && place < station->fixed.modules.count));
        HOLDS(task.there == (begun && place < station->fixed.tasks.count));
        HOLDS(task.awaits <= task.there && (task.awaits || task.left == 0));
    }
}

/* Any bytes may stand in a station: the tick ends, is accepted or refused as a tick is, and a refusal leaves every byte. */
static void any_station(const olbiothar_station *station) {
    static olbiothar_station ticked, before;
    for (unsigned tried = 0; tried < 4000; tried++) {
        ticked = *station;
        uint8_t *bytes = (uint8_t *)&ticked;
        size_t changed = tried % 2 == 0 ? sizeof ticked : 1u + any_byte() % 8u;
        for (size_t k = 0; k < changed; k++) {
            size_t at = changed == sizeof ticked ? k : (any_byte() * 65536u + any_byte() * 256u + any_byte()) % sizeof ticked;
            bytes[at] = any_byte();
        }
        before = ticked;
        olbiothar_answer answer = play(&ticked, FRAME_STARTS).answer;
        said_of_any(&before, answer);
        HOLDS(answer.number == OLBIOTHAR_DONE || (answer.number >= OLBIOTHAR_NOT_BEGUN && answer.number <= OLBIOTHAR_CHANGE_NOT_ALLOWED));
        if (changed == sizeof ticked) HOLDS(is(answer, OLBIOTHAR_NOT_BEGUN, 0));
        if (answer.number != OLBIOTHAR_DONE) HOLDS(same_station(&ticked, &before));
    }
}

int main(int count, char **words) {
    static olbiothar_station station;
    HOLDS(count == 2);
    read_plan(words[1]);
    nothing_lent();
    no_editions();
    read_by_consumers();
    printed_and_read();
    written_and_read();
    worded();
    fields(&station);
    refused_beginnings(&station);
    accessors();
    flags(&station);
    behind_the_pairs(&station);
    any_station(&station);
    puts("boundary: as the header says");
    return 0;
}
