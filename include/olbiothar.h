/* Olbiothar: bus tables made, checked, played, printed and read back; plans as text. The functions of libolbiothar.a (x86-64 Linux).
 *
 * Every function here is proved: for every value of its parameters it ends, stays within the memory that it is lent, and returns
 * what is said below. What a caller owes is C's own: each pointer leads to as much memory as its parameter says, and memory that a
 * function writes to is lent to nothing else during the call. A pointer with a length of 0 is not followed: it may be NULL. A pointer to
 * a station is always followed.
 *
 * What the archive needs: `memcpy` and `memset`, and nothing else of a C library or of the system. It has no data that is written to, takes
 * nothing from a heap, has no state and no lock: threads may share it, and calls on different memory may run at the same time. What a call
 * takes of the stack is said below (OLBIOTHAR_STACK_..). It is machine code for x86-64-v2 (SSE4.2, POPCNT) by the System V calling
 * convention, as Linux has it; it may stand at any address. Where the library is installed,
 *
 *     cc client.c $(pkg-config --cflags --libs olbiothar)
 *
 * compiles and links a client. This header is C11, and C++11.
 *
 * Times are in ticks of one microsecond. Files (plans, tables) are rows of records as section 2 of docs/RULES.md has them. Texts (plans as
 * text, sheets) are bytes; but for the words of a refusal there is no zero byte at their end.
 */
#ifndef OLBIOTHAR_H
#define OLBIOTHAR_H

#include <stddef.h>
#include <stdint.h>

#ifdef __cplusplus
extern "C" {
#endif

#define OLBIOTHAR_VERSION "0.9.0"

enum {
    OLBIOTHAR_NODES = 8,
    OLBIOTHAR_MODULES = 16,
    OLBIOTHAR_MODES = 32,
    OLBIOTHAR_TASKS = 32,
    OLBIOTHAR_FRAMES = 1024,
    /* No table is longer, 14,425 bytes: a header, 8 control rows, 1,024 data rows and an end. */
    OLBIOTHAR_LONGEST_TABLE = 8 + OLBIOTHAR_NODES * 10 + OLBIOTHAR_FRAMES * 14 + 1,
    /* No sheet is longer, and no longer text is read, as a sheet or as a plan. */
    OLBIOTHAR_LONGEST_SHEET = 262144,
    /* As many bytes are lent for words, their zero byte among them. */
    OLBIOTHAR_LONGEST_WORDS = 128
};

/* Bytes of stack that a call takes at most, below its caller's own variables: arguments that go by the stack, the function, and all that
 * it calls. Measured (tests/needs paints a stack, and fails where a call takes more), not proved. No function calls itself, and the
 * number of frames does not matter. */
#define OLBIOTHAR_STACK_MAKE 94208
#define OLBIOTHAR_STACK_CHECK 99328
#define OLBIOTHAR_STACK_BEGIN 267264
#define OLBIOTHAR_STACK_TICK 21504
#define OLBIOTHAR_STACK_TIME 256
#define OLBIOTHAR_STACK_MODULE 2048
#define OLBIOTHAR_STACK_TASK 2048
#define OLBIOTHAR_STACK_SHEET 96256
#define OLBIOTHAR_STACK_SHEET_TABLE 14336
#define OLBIOTHAR_STACK_PLAN_TEXT 1024
#define OLBIOTHAR_STACK_TEXT_PLAN 1024
#define OLBIOTHAR_STACK_WORDS 256
#define OLBIOTHAR_STACK_REASON_WORDS 512

/* The numbers of the refusals, and what the place says. olbiothar_words has them in words. */
enum {
    OLBIOTHAR_DONE = 0,                 /* not refused */
    OLBIOTHAR_BAD_RECORDS = 1,          /* offset in the plan */
    OLBIOTHAR_BAD_COUNT = 2,            /* kind of record */
    OLBIOTHAR_NOT_THERE = 3,            /* record of the plan */
    OLBIOTHAR_OUT_OF_RANGE = 4,         /* record of the plan */
    OLBIOTHAR_UNFIT = 5,                /* record of the plan */
    OLBIOTHAR_NO_BUS_TASK = 6,          /* 0 */
    OLBIOTHAR_PERIOD_DOES_NOT_DIVIDE = 7, /* 0 */
    OLBIOTHAR_PERIOD_OFF_RESOLUTION = 8, /* 0 */
    OLBIOTHAR_TOO_MANY_FRAMES = 9,      /* 0 */
    OLBIOTHAR_PAYLOAD_TOO_LARGE = 10,   /* 0 */
    OLBIOTHAR_CONTROL_TOO_LONG = 11,    /* 0 */
    OLBIOTHAR_NO_ROOM = 12,             /* frame for which the maker's rule found no place; a table may still exist */
    OLBIOTHAR_BUFFER_TOO_SHORT = 13,    /* bytes needed */
    OLBIOTHAR_TOO_FEW_ROWS = 19,        /* 1,024, the rows needed */
    OLBIOTHAR_BAD_TABLE_RECORDS = 20,   /* offset in the table */
    OLBIOTHAR_WRONG_HEADER = 21,        /* 0 */
    OLBIOTHAR_WRONG_CONTROL_ROW = 22,   /* record of the table */
    OLBIOTHAR_NO_NEW_FRAME = 23,        /* record of the table */
    OLBIOTHAR_WRONG_TIME = 24,          /* record of the table */
    OLBIOTHAR_BEFORE_RELEASE = 25,      /* record of the table */
    OLBIOTHAR_AFTER_DEADLINE = 26,      /* record of the table */
    OLBIOTHAR_GAP_BROKEN = 27,          /* record of the table */
    OLBIOTHAR_NO_GAP_AT_END = 28,       /* record of the table: its last row */
    OLBIOTHAR_NOT_BEGUN = 40,           /* module; 0 at a tick */
    OLBIOTHAR_NOT_AWAITED = 41,         /* task */
    OLBIOTHAR_RESULT_TOO_LARGE = 42,    /* task */
    OLBIOTHAR_RESULT_OVERDUE = 43,      /* task */
    OLBIOTHAR_CHANGE_NOT_ALLOWED = 44,  /* module */
    OLBIOTHAR_UNREADABLE = 60,          /* line of the text, counted from 1 */
    OLBIOTHAR_TEXT_TOO_LONG = 61,       /* the most bytes that are read: 262,144 of a text, 65,536 of a plan that is printed */
    OLBIOTHAR_NO_EDITION = 62           /* the number that was given */
};

/* The editions: which messages a table carries. A table says its own by its first byte, 16 or 20. */
enum {
    OLBIOTHAR_BASIC = 0,     /* every message of a task that is consumed on another node */
    OLBIOTHAR_CONSUMERS = 1  /* those of them that a run on another node reads */
};

/* Why a line of a plan's text cannot be read. olbiothar_reason_words has it in words. */
enum {
    OLBIOTHAR_NO_REASON = 0,            /* not refused with 60 */
    OLBIOTHAR_BUS_EXPECTED = 1,
    OLBIOTHAR_NODES_EXPECTED = 2,
    OLBIOTHAR_UNKNOWN_WORD = 3,
    OLBIOTHAR_OUT_OF_ORDER = 4,
    OLBIOTHAR_NUMBER_EXPECTED = 5,
    OLBIOTHAR_NUMBER_TOO_LARGE = 6,
    OLBIOTHAR_END_OF_LINE_EXPECTED = 7,
    /* This and k: the word number k of bus, kbit/s, overhead-bytes, least-payload, largest-payload, gap-bits, resolution, bits-per-byte,
     * nodes, module, on, node, mode, of, period, switch, task, bytes, worst, run, in, rate, connect, to, counted from 0. */
    OLBIOTHAR_WORD_EXPECTED = 32
};

/* What a call comes to: `number` is 0, or that of the first refusal that applies, at its lowest place. */
typedef struct olbiothar_answer {
    uint32_t number;
    uint64_t place;
} olbiothar_answer;

/* A frame, by its number: by deadline, then by task. `start` is its start in the table. */
typedef struct olbiothar_frame {
    uint32_t task;
    uint32_t release;
    uint32_t deadline;
    uint32_t start;
} olbiothar_frame;

/* Makes the table of a plan, in one of the editions, by the latest-release rule.
 *
 * `plan`, `plan_length`: any bytes. `edition`: OLBIOTHAR_BASIC or OLBIOTHAR_CONSUMERS. `rows`, `row_count`: lent frame rows, 1,024 or
 * more. `table`, `table_length`: lent bytes, with any contents; OLBIOTHAR_LONGEST_TABLE are always enough, and NULL with 0 asks for the
 * bytes needed (13, if no other number applies).
 *
 * number 0: the table stands in the first `place` bytes of `table`, and passes olbiothar_check; the bytes behind it are as they
 *   were. The rows are the frames by number, with their starts, then zero rows to the end.
 * number 1 to 13, and 62 (no such edition; tested before these): the bytes of `table` are as they were, every row is zero.
 * number 19 (fewer than 1,024 rows; tested before all else): table and rows are as they were.
 */
olbiothar_answer olbiothar_make(const uint8_t *plan, size_t plan_length, uint8_t edition, olbiothar_frame *rows, size_t row_count,
                                uint8_t *table, size_t table_length);

/* Judges a table of a plan, whoever made it, in the edition that its first byte says: 20 is OLBIOTHAR_CONSUMERS, and anything else, and no
 * byte, OLBIOTHAR_BASIC. What is proved of a table that passes: take a station that begins with it, and any ticks that are accepted one
 * after the other; refused ones in between change nothing. Behind each of them a task's own node, and each node that consumes the task (a
 * connection leads from it to a task there), shows the value that the task would have if all tasks ran on one board and there were no bus.
 * In OLBIOTHAR_CONSUMERS a node that consumes the task shows it at each tick at which a run of the consumer is released, where its own
 * node does at every tick. Of other nodes nothing is said here. And no two frames of such a table, of one cycle or of two, stand closer
 * than the gap of the plan's bus.
 *
 * number 0: it passes (`place` is 0). The rows are the frames by number, with their starts in this table, then zero rows to the end.
 * number 1 to 11 (the plan's) and 20 to 28 (the table's): every row is zero.
 * number 19: the rows are as they were.
 */
olbiothar_answer olbiothar_check(const uint8_t *plan, size_t plan_length, const uint8_t *table, size_t table_length,
                                 olbiothar_frame *rows, size_t row_count);

/* What a node has, by task. It stays until it is overwritten, also through changes of mode and empty frames. */
typedef struct olbiothar_node {
    uint64_t landed[OLBIOTHAR_TASKS]; /* the value that came last over the bus; 0 on the task's own node */
    uint64_t shown[OLBIOTHAR_TASKS];  /* what the node shows, behind the last accepted tick */
} olbiothar_node;

/* A played station, 27,016 bytes. It holds its own copy of what it needs of plan and table. All bytes zero, it is a station not begun.
 *
 * olbiothar_time, olbiothar_module and olbiothar_task say what a caller needs from tick to tick, and `nodes[n].shown[t]` is what node n
 * shows of task t. All other fields may be read too; what stands in them is said here, in the words of section 8 of docs/RULES.md.
 * Any numbers may stand in a station that is ticked, also in one that was kept elsewhere and read back: one outside its range (rule 8.19)
 * makes the tick answer 40 at 0. Flags are set where the byte is not 0, and stored as 0 or 1. What lies between the fields may be anything:
 * two stations are compared field by field.
 *
 * A pair is a frame: a bus task with one deadline. Pair q and the arrays `pair_..` go by the frame's number. */
typedef struct olbiothar_station {
    /* What it keeps of plan and table: `fixed`, `runs` and the pairs do not change while it plays. Places behind a count are 0. */
    struct {
        struct {
            uint8_t count;                          /* how many modules the plan has */
            uint8_t sites[OLBIOTHAR_MODULES];       /* by module: the node that it is on */
            uint8_t sending[OLBIOTHAR_MODULES];     /* by module: a flag, whether one of its tasks goes over the bus */
        } modules;
        struct {
            uint8_t count;                          /* how many modes the plan has, of all modules */
            uint8_t homes[OLBIOTHAR_MODES];         /* by mode: its module */
            uint32_t periods[OLBIOTHAR_MODES];      /* by mode: its period, in ticks */
            uint32_t switches[OLBIOTHAR_MODES];     /* by mode: it may be left at multiples of so many ticks since it began */
        } modes;
        struct {
            uint8_t count;                          /* how many tasks the plan has */
            uint8_t homes[OLBIOTHAR_TASKS];         /* by task: its module */
            uint8_t sizes[OLBIOTHAR_TASKS];         /* by task: the bytes of its result, 1 to 8 */
            uint32_t worsts[OLBIOTHAR_TASKS];       /* by task: its worst time, the age at which a run has its result at the latest */
        } tasks;
        struct {
            uint8_t count;                          /* how many control rows the table has */
            uint8_t nodes[OLBIOTHAR_NODES];         /* by control row: the node that sends it */
            uint32_t starts[OLBIOTHAR_NODES];       /* by control row: the bus time at which it starts */
            uint32_t stops[OLBIOTHAR_NODES];        /* by control row: the bus time at which it stops, and lands */
        } controls;
        uint32_t period;                            /* the bus period P: the length of the table's cycle, in ticks */
        uint16_t pairs;                             /* how many pairs there are; what lies in the places behind them is not looked at */
    } fixed;
    uint32_t runs[OLBIOTHAR_MODES * OLBIOTHAR_TASKS]; /* at mode * 32 + task: each how many ticks the mode runs the task; 0: it does not */
    uint8_t pair_tasks[OLBIOTHAR_FRAMES];           /* by pair: its task */
    uint32_t pair_deadlines[OLBIOTHAR_FRAMES];      /* by pair: its deadline, as a bus time */
    uint32_t pair_starts[OLBIOTHAR_FRAMES];         /* by pair: the bus time at which its data row starts */
    uint32_t pair_stops[OLBIOTHAR_FRAMES];          /* by pair: the bus time at which its data row stops, and lands */
    uint32_t pair_modes[OLBIOTHAR_FRAMES];          /* by pair: bit m says that mode m has a message of the task with this deadline
                                                     * (in OLBIOTHAR_CONSUMERS: one that is read) */
    /* What a tick changes. */
    struct {
        uint32_t clock;                             /* the bus time of the next tick: 0 at first, then from 1 to P and again from 1 */
        uint8_t running[OLBIOTHAR_MODULES];         /* by module: the mode that runs */
        uint32_t ages[OLBIOTHAR_MODULES];           /* by module: at the next tick, the time since its mode began, within the mode's
                                                     * period: 0 at first, then from 1 to the period and again from 1 */
        uint8_t bytes[OLBIOTHAR_MODULES];           /* by module: its mode as the control frame of its node last took it */
        uint8_t givens[OLBIOTHAR_TASKS];            /* by task: a flag, whether the run that is under way has had its result */
        uint64_t out[OLBIOTHAR_TASKS];              /* by task: its out-box, the last result that was given */
        uint8_t held[OLBIOTHAR_NODES * OLBIOTHAR_MODULES]; /* at node * 16 + module: the module's mode as the node last heard it */
        uint8_t full[OLBIOTHAR_TASKS];              /* by task: a flag, whether its last data frame went out with a value */
        uint64_t loads[OLBIOTHAR_TASKS];            /* by task: that value */
    } play;
    olbiothar_node nodes[OLBIOTHAR_NODES];          /* by node; there are eight, whatever the plan has */
} olbiothar_station;

/* What a beginning is given: module m starts in mode `modes[m]` if `given[m]` is not 0. */
typedef struct olbiothar_starting {
    uint8_t modes[OLBIOTHAR_MODULES];
    uint8_t given[OLBIOTHAR_MODULES];
} olbiothar_starting;

/* Begins a station with a plan, a table and a mode for each module, in place.
 *
 * `plan`, `table`: any bytes. `station`: lent, with any contents.
 *
 * number 0 (`place` is 0): `*station` has begun; its next tick is time 0. It needs neither plan nor table from now on.
 * number 1 to 11 and 20 to 28: what olbiothar_check gives for plan and table. number 40: of the 16 places, the lowest whose module
 *   is given no mode of its own, or that is given one behind the plan's modules. `*station` is then as it stood.
 */
olbiothar_answer olbiothar_begin(const uint8_t *plan, size_t plan_length, const uint8_t *table, size_t table_length,
                                 olbiothar_starting starting, olbiothar_station *station);

/* What a tick is given: the task t the result `results[t]` if `given[t]` is not 0; the module m a change to mode `modes[m]` if
 * `changed[m]` is not 0. All bytes zero: nothing. */
typedef struct olbiothar_input {
    uint64_t results[OLBIOTHAR_TASKS];
    uint8_t given[OLBIOTHAR_TASKS];
    uint8_t modes[OLBIOTHAR_MODULES];
    uint8_t changed[OLBIOTHAR_MODULES];
} olbiothar_input;

/* The row that starts at a tick: `kind` is 0 (none; the rest is 0), 17 (the control row of node `sender`; `deadline` is 0) or 18 (a
 * data row of task `sender`). */
typedef struct olbiothar_row {
    uint8_t kind;
    uint8_t sender;
    uint32_t deadline;
    uint32_t start;
    uint32_t stop;
} olbiothar_row;

/* What a tick answers, and the row that starts at it. */
typedef struct olbiothar_tick_answer {
    olbiothar_answer answer;
    olbiothar_row row;
} olbiothar_tick_answer;

/* Plays one tick, in place.
 *
 * number 0: the tick is accepted; `*station` is the station after it.
 * number 40 at 0: the station has not begun, or holds a number outside its range. number 41 to 44: a result or a change that is not
 *   allowed. `*station` is then as it stood: the same tick may be tried again with other results and changes.
 */
olbiothar_tick_answer olbiothar_tick(olbiothar_station *station, olbiothar_input input);

/* The time of a station. */
typedef struct olbiothar_time_now {
    uint8_t begun;   /* 1 if the station has begun (it has a period), else 0, and the rest is 0 */
    uint32_t clock;  /* the bus time of its next tick: 0 at first, then from 1 to `period` and again from 1 */
    uint32_t period; /* the length of the table's cycle */
} olbiothar_time_now;

/* This and the two functions below only read a station. Any numbers may stand in it: of one that holds a number outside its range, and so
 * is refused by every tick, they say what its fields come to. */
olbiothar_time_now olbiothar_time(const olbiothar_station *station);

/* A module of a station. */
typedef struct olbiothar_module_now {
    uint8_t there; /* 1 if the station has begun and has a module of this number, else 0, and the rest is 0 */
    uint8_t node;  /* the node that it is on */
    uint8_t mode;  /* the mode that runs */
    uint32_t age;  /* at the next tick, the time since that mode began, within its period: 0 at first, then from 1 to the period */
} olbiothar_module_now;

olbiothar_module_now olbiothar_module(const olbiothar_station *station, uint8_t module);

/* A task of a station, and what the next tick may bring of it. */
typedef struct olbiothar_task_now {
    uint8_t there;  /* 1 if the station has begun and has a task of this number, else 0, and the rest is 0 */
    uint8_t home;   /* its module */
    uint8_t awaits; /* 1 if a result may be given with the next tick (it is not refused with 41), else 0 */
    uint32_t left;  /* where `awaits` is 1: how many ticks may pass without the result; 0: it must come with the next one (else 43) */
} olbiothar_task_now;

olbiothar_task_now olbiothar_task(const olbiothar_station *station, uint8_t task);

/* What a sheet comes to: what olbiothar_check gives for plan and table, and how many bytes of text there are. */
typedef struct olbiothar_sheet_answer {
    olbiothar_answer checked;
    uint64_t length;
} olbiothar_sheet_answer;

/* Prints a table of a plan as a sheet: a line for each row, with its window and how far it lies from both of its ends. docs/examples has
 * the sheet of a table that passes and of one that does not.
 *
 * `plan`, `table`: any bytes. `text`, `text_length`: lent bytes, with any contents, OLBIOTHAR_LONGEST_SHEET or more. `length` bytes of text
 * then stand at the front of `text`; the bytes behind them are as they were. There is no zero byte at the end.
 *
 * checked.number 0 (`place` is 0): the table passes olbiothar_check, and the text is its sheet.
 * checked.number 25 to 28: a row stands at a wrong time; the text is the line `refused N at P`, then the sheet.
 * checked.number 1 to 11 and 20 to 24: the text is that line alone.
 * checked.number 13 (text_length is below OLBIOTHAR_LONGEST_SHEET, the place; tested before all else): `length` is 0, `text` is as it was.
 */
olbiothar_sheet_answer olbiothar_sheet(const uint8_t *plan, size_t plan_length, const uint8_t *table, size_t table_length,
                                       uint8_t *text, size_t text_length);

/* Reads a sheet back, also one that was changed by hand: spaces, comments, blank lines and line ends are free, and numbers that only tell
 * need only be numbers. What is proved of a sheet that olbiothar_sheet has printed: it reads back to the bytes of its table. Whether the
 * rows are right is olbiothar_check's matter.
 *
 * `text`: any bytes. `table`, `table_length`: lent bytes, with any contents; OLBIOTHAR_LONGEST_TABLE are always enough.
 *
 * number 0: the table stands in the first `place` bytes of `table`; the bytes behind it are as they were.
 * number 61: text_length is above OLBIOTHAR_LONGEST_SHEET. number 60: the first line that is no line of a sheet, or stands where it may
 *   not; where the text ends before its cycle, the line behind the last. number 13: the bytes needed are more than table_length. This is
 *   also the order in which they are tested. `table` is then as it was.
 */
olbiothar_answer olbiothar_sheet_table(const uint8_t *text, size_t text_length, uint8_t *table, size_t table_length);

/* Prints a plan as text: a line for each record, in the order of the file, with its number in a comment. docs/PLANS.md has the lines.
 * Plans that keep the record rules are printed, whatever the later rules say of them.
 *
 * `plan`: any bytes. `text`, `text_length`: lent bytes, with any contents; NULL with 0 asks for the bytes needed (13, if no other number
 * applies); no text has more than 2,752,512.
 *
 * number 0: the text stands in the first `place` bytes of `text`; the bytes behind it are as they were.
 * number 61: plan_length is above 65,536, the place. number 1: the plan breaks the record rules, at this offset. number 13: the bytes needed
 *   are more than text_length. This is also the order in which they are tested. `text` is then as it was.
 */
olbiothar_answer olbiothar_plan_text(const uint8_t *plan, size_t plan_length, uint8_t *text, size_t text_length);

/* What reading a plan's text comes to: the answer, and with number 60 why the line cannot be read, else 0. */
typedef struct olbiothar_plan_answer {
    olbiothar_answer answer;
    uint32_t reason;
} olbiothar_plan_answer;

/* Reads a plan from its text: spaces, comments, blank lines and line ends are free, the order is that of the file. What is proved: a
 * text that olbiothar_plan_text has printed, and that is short enough to be read, reads back to the bytes of its plan; and what is read
 * keeps the record rules (1 does not apply to it). Whether the numbers are right is the matter of olbiothar_make and olbiothar_check.
 *
 * `text`: any bytes. `plan`, `plan_length`: lent bytes, with any contents; NULL with 0 asks for the bytes needed (13, if no other number
 * applies).
 *
 * answer.number 0: the plan stands in the first `place` bytes of `plan`; the bytes behind it are as they were.
 * answer.number 61: text_length is above OLBIOTHAR_LONGEST_SHEET. answer.number 60: the first line that cannot be read, and why; where the
 *   text ends before its bus or its nodes, the line behind the last. answer.number 13: the bytes needed are more than plan_length. This is
 *   also the order in which they are tested. `plan` is then as it was.
 */
olbiothar_plan_answer olbiothar_text_plan(const uint8_t *text, size_t text_length, uint8_t *plan, size_t plan_length);

/* The words of an answer's number, and of what its place counts: of 12 `no place for a frame; the place is the frame's number`. Those of 0
 * are `done`; a number that no answer has gets words that say so.
 *
 * `text`, `text_length`: lent bytes, with any contents, OLBIOTHAR_LONGEST_WORDS or more. The words stand at the front of `text`, then a
 * zero byte; the bytes behind it are as they were. Returned is their length, without that byte. Where fewer bytes are lent, nothing is
 * written and 0 is returned.
 */
uint64_t olbiothar_words(uint32_t number, uint8_t *text, size_t text_length);

/* The words of a reason: for 53, say, `rate expected`. As olbiothar_words. */
uint64_t olbiothar_reason_words(uint32_t reason, uint8_t *text, size_t text_length);

/* The structs lie in memory as the library has them: a compiler for which one of these fails must not call it. */
#ifdef __cplusplus
#define OLBIOTHAR_SAME(is, shall) static_assert((is) == (shall), "the library has it at " #shall)
#define OLBIOTHAR_ALIGNMENT(type) alignof(type)
#else
#define OLBIOTHAR_SAME(is, shall) _Static_assert((is) == (shall), "the library has it at " #shall)
#define OLBIOTHAR_ALIGNMENT(type) _Alignof(type)
#endif
#define OLBIOTHAR_SIZE(type, size, alignment) \
    OLBIOTHAR_SAME(sizeof(type), size);       \
    OLBIOTHAR_SAME(OLBIOTHAR_ALIGNMENT(type), alignment)
#define OLBIOTHAR_AT(type, field, offset, size)    \
    OLBIOTHAR_SAME(offsetof(type, field), offset); \
    OLBIOTHAR_SAME(sizeof(((type *)0)->field), size)

OLBIOTHAR_SIZE(olbiothar_answer, 16, 8);
OLBIOTHAR_AT(olbiothar_answer, number, 0, 4);
OLBIOTHAR_AT(olbiothar_answer, place, 8, 8);

OLBIOTHAR_SIZE(olbiothar_frame, 16, 4);
OLBIOTHAR_AT(olbiothar_frame, task, 0, 4);
OLBIOTHAR_AT(olbiothar_frame, release, 4, 4);
OLBIOTHAR_AT(olbiothar_frame, deadline, 8, 4);
OLBIOTHAR_AT(olbiothar_frame, start, 12, 4);

OLBIOTHAR_SIZE(olbiothar_node, 512, 8);
OLBIOTHAR_AT(olbiothar_node, landed, 0, 256);
OLBIOTHAR_AT(olbiothar_node, shown, 256, 256);

OLBIOTHAR_SIZE(olbiothar_station, 27016, 8);
OLBIOTHAR_AT(olbiothar_station, fixed, 0, 608);
OLBIOTHAR_AT(olbiothar_station, fixed.modules, 0, 33);
OLBIOTHAR_AT(olbiothar_station, fixed.modules.count, 0, 1);
OLBIOTHAR_AT(olbiothar_station, fixed.modules.sites, 1, 16);
OLBIOTHAR_AT(olbiothar_station, fixed.modules.sending, 17, 16);
OLBIOTHAR_AT(olbiothar_station, fixed.modes, 36, 292);
OLBIOTHAR_AT(olbiothar_station, fixed.modes.count, 36, 1);
OLBIOTHAR_AT(olbiothar_station, fixed.modes.homes, 37, 32);
OLBIOTHAR_AT(olbiothar_station, fixed.modes.periods, 72, 128);
OLBIOTHAR_AT(olbiothar_station, fixed.modes.switches, 200, 128);
OLBIOTHAR_AT(olbiothar_station, fixed.tasks, 328, 196);
OLBIOTHAR_AT(olbiothar_station, fixed.tasks.count, 328, 1);
OLBIOTHAR_AT(olbiothar_station, fixed.tasks.homes, 329, 32);
OLBIOTHAR_AT(olbiothar_station, fixed.tasks.sizes, 361, 32);
OLBIOTHAR_AT(olbiothar_station, fixed.tasks.worsts, 396, 128);
OLBIOTHAR_AT(olbiothar_station, fixed.controls, 524, 76);
OLBIOTHAR_AT(olbiothar_station, fixed.controls.count, 524, 1);
OLBIOTHAR_AT(olbiothar_station, fixed.controls.nodes, 525, 8);
OLBIOTHAR_AT(olbiothar_station, fixed.controls.starts, 536, 32);
OLBIOTHAR_AT(olbiothar_station, fixed.controls.stops, 568, 32);
OLBIOTHAR_AT(olbiothar_station, fixed.period, 600, 4);
OLBIOTHAR_AT(olbiothar_station, fixed.pairs, 604, 2);
OLBIOTHAR_AT(olbiothar_station, runs, 608, 4096);
OLBIOTHAR_AT(olbiothar_station, pair_tasks, 4704, 1024);
OLBIOTHAR_AT(olbiothar_station, pair_deadlines, 5728, 4096);
OLBIOTHAR_AT(olbiothar_station, pair_starts, 9824, 4096);
OLBIOTHAR_AT(olbiothar_station, pair_stops, 13920, 4096);
OLBIOTHAR_AT(olbiothar_station, pair_modes, 18016, 4096);
OLBIOTHAR_AT(olbiothar_station, play, 22112, 808);
OLBIOTHAR_AT(olbiothar_station, play.clock, 22112, 4);
OLBIOTHAR_AT(olbiothar_station, play.running, 22116, 16);
OLBIOTHAR_AT(olbiothar_station, play.ages, 22132, 64);
OLBIOTHAR_AT(olbiothar_station, play.bytes, 22196, 16);
OLBIOTHAR_AT(olbiothar_station, play.givens, 22212, 32);
OLBIOTHAR_AT(olbiothar_station, play.out, 22248, 256);
OLBIOTHAR_AT(olbiothar_station, play.held, 22504, 128);
OLBIOTHAR_AT(olbiothar_station, play.full, 22632, 32);
OLBIOTHAR_AT(olbiothar_station, play.loads, 22664, 256);
OLBIOTHAR_AT(olbiothar_station, nodes, 22920, 4096);

OLBIOTHAR_SIZE(olbiothar_starting, 32, 1);
OLBIOTHAR_AT(olbiothar_starting, modes, 0, 16);
OLBIOTHAR_AT(olbiothar_starting, given, 16, 16);

OLBIOTHAR_SIZE(olbiothar_input, 320, 8);
OLBIOTHAR_AT(olbiothar_input, results, 0, 256);
OLBIOTHAR_AT(olbiothar_input, given, 256, 32);
OLBIOTHAR_AT(olbiothar_input, modes, 288, 16);
OLBIOTHAR_AT(olbiothar_input, changed, 304, 16);

OLBIOTHAR_SIZE(olbiothar_row, 16, 4);
OLBIOTHAR_AT(olbiothar_row, kind, 0, 1);
OLBIOTHAR_AT(olbiothar_row, sender, 1, 1);
OLBIOTHAR_AT(olbiothar_row, deadline, 4, 4);
OLBIOTHAR_AT(olbiothar_row, start, 8, 4);
OLBIOTHAR_AT(olbiothar_row, stop, 12, 4);

OLBIOTHAR_SIZE(olbiothar_tick_answer, 32, 8);
OLBIOTHAR_AT(olbiothar_tick_answer, answer, 0, 16);
OLBIOTHAR_AT(olbiothar_tick_answer, row, 16, 16);

OLBIOTHAR_SIZE(olbiothar_time_now, 12, 4);
OLBIOTHAR_AT(olbiothar_time_now, begun, 0, 1);
OLBIOTHAR_AT(olbiothar_time_now, clock, 4, 4);
OLBIOTHAR_AT(olbiothar_time_now, period, 8, 4);

OLBIOTHAR_SIZE(olbiothar_module_now, 8, 4);
OLBIOTHAR_AT(olbiothar_module_now, there, 0, 1);
OLBIOTHAR_AT(olbiothar_module_now, node, 1, 1);
OLBIOTHAR_AT(olbiothar_module_now, mode, 2, 1);
OLBIOTHAR_AT(olbiothar_module_now, age, 4, 4);

OLBIOTHAR_SIZE(olbiothar_task_now, 8, 4);
OLBIOTHAR_AT(olbiothar_task_now, there, 0, 1);
OLBIOTHAR_AT(olbiothar_task_now, home, 1, 1);
OLBIOTHAR_AT(olbiothar_task_now, awaits, 2, 1);
OLBIOTHAR_AT(olbiothar_task_now, left, 4, 4);

OLBIOTHAR_SIZE(olbiothar_sheet_answer, 24, 8);
OLBIOTHAR_AT(olbiothar_sheet_answer, checked, 0, 16);
OLBIOTHAR_AT(olbiothar_sheet_answer, length, 16, 8);

OLBIOTHAR_SIZE(olbiothar_plan_answer, 24, 8);
OLBIOTHAR_AT(olbiothar_plan_answer, answer, 0, 16);
OLBIOTHAR_AT(olbiothar_plan_answer, reason, 16, 4);

#undef OLBIOTHAR_AT
#undef OLBIOTHAR_SIZE
#undef OLBIOTHAR_ALIGNMENT
#undef OLBIOTHAR_SAME

#ifdef __cplusplus
}
#endif

#endif
