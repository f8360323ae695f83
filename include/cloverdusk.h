/*
 * Cloverdusk: a proved dispatcher for a school of gate control, from C (C11) and C++ (C++17).
 *
 * Link crates/cloverdusk/out/libcloverdusk.a, which `tools/library` proves and builds for x86-64
 * (System V calls: Linux and its like). docs/EMBEDDING.md says what to do on another processor.
 *
 * Every call is a function of its arguments: no state is kept, no memory is allocated, no file is touched,
 * so any number of threads may call at once. Structs go in and out by value; anything may stand in them,
 * and nobody need check first: what is not right is refused by a number. A call takes at most 32 KiB of
 * stack with the structs handed in, one that makes a text of texts at most 96 KiB; the answer's place is the caller's.
 *
 * Pointers. Only calls with a `_length` argument take any, each with the length that follows it:
 *   const uint8_t *text, size_t text_length   bytes to read; all of them may be read
 *   uint8_t *out, size_t out_length           bytes to write; all of them may be written, and no other argument's
 *                                             bytes are among them
 * With length 0 the pointer may be null (an empty string_view has such a one): see the end of this file.
 * A length may be any, up to PTRDIFF_MAX: a text longer than CLOVER_LONGEST_TEXT is refused by 1, a buffer
 * that is too short gets no byte. No pointer is kept after the call. A dangling pointer, a null pointer with another
 * length than 0, or a length past what it points to, is the caller's to keep out: no contract speaks of it.
 *
 * Results. A call changes nothing that is handed to it: the book after a report is in what it returns. So the compiler
 * warns if a result is not used.
 *
 * Truth values are `bool`; a rule that is chosen is `bool clash`, a rule that is told is a byte (`rule == CLOVER_CLASH`).
 *
 * Padding. CloverPlan (and what holds one), CloverExact, CloverLengthsResult and CloverOnDrive have bytes that belong to
 * no field. Compare such structs field by field, not by memcmp.
 *
 * Task number k has index k - 1 in every array of 64. Ticks are 0 to CLOVER_LAST_TICK.
 */
#ifndef CLOVERDUSK_H
#define CLOVERDUSK_H

#if !defined(__x86_64__) || defined(_WIN32) || defined(__CYGWIN__)
#error "libcloverdusk.a is for x86-64 and its System V calls: docs/EMBEDDING.md says what to do elsewhere"
#endif

#include <stddef.h>
#include <stdint.h>
#ifndef __cplusplus
#include <stdbool.h>
#endif

#ifdef __cplusplus
#define CLOVER_FACT(fact, words) static_assert(fact, words)
extern "C" {
#else
#define CLOVER_FACT(fact, words) _Static_assert(fact, words)
#endif
/* A result that is not used is a mistake. */
#if defined(__cplusplus)
#define CLOVER_RESULT [[nodiscard]]
#elif defined(__GNUC__)
#define CLOVER_RESULT __attribute__((warn_unused_result))
#else
#define CLOVER_RESULT
#endif
/* How the library was compiled: the size of a struct, and where each field lies. */
#define CLOVER_SIZE(type, size) CLOVER_FACT(sizeof(type) == (size), "the size of " #type)
#define CLOVER_PLACE(type, field, place) CLOVER_FACT(offsetof(type, field) == (place), "the place of " #type "." #field)

/* ---- sizes */
enum {
    CLOVER_MOST_BOARDS = 8,
    CLOVER_MOST_TASKS = 64,
    CLOVER_MOST_DRIVES = 32,
    CLOVER_LAST_TICK = 1000000,
    CLOVER_LONGEST_TEXT = 32768,     /* bytes of a text handed in */
    CLOVER_HOLD_PLACES = 32,         /* in `holds`, for each task */
    CLOVER_AFTER_PLACES = 64,        /* in `after`, for each task */
    CLOVER_RUNNING_PLACES = 8,       /* in a sheet's `running`, for each drive */
    CLOVER_LONGEST_LOG = 212992,     /* the room that clover_run_log asks for */
    CLOVER_LONGEST_CONVERTED = 32768,/* clover_convert_text; no text of clover_write_plan is longer either */
    CLOVER_LONGEST_TIMETABLE = 3328, /* clover_write_timetable */
    CLOVER_LONGEST_JUDGED = 1588,    /* clover_write_judged */
    CLOVER_LONGEST_REPORT = 1024,    /* clover_write_report */
    CLOVER_MOST_LOGS = 10000         /* of a year */
};

/* ---- what the bytes of a plan and a book say */
enum {
    CLOVER_EDITION_1 = 1,
    CLOVER_EDITION_2 = 2,            /* has ready ticks, and no shared holds */
    CLOVER_EARLY_START = 0,          /* `rule`: a task waits for all planned to finish by its planned start */
    CLOVER_CLASH = 1,                /* or for those of them that clash with it */
    CLOVER_WAITING = 0,              /* `mark`: the start is not known */
    CLOVER_RUNNING = 1,              /* the start is known; in edition 2 it may lie ahead of the clock */
    CLOVER_ENDED = 2,
    CLOVER_DROPPED = 1               /* `dropped`; of a task that is not dropped a book holds 0 */
};

/* ---- refusal numbers: an answer's `code`; behind each what `first` and `second` say */
enum {
    CLOVER_ACCEPTED = 0,                    /* nothing is refused: 0, 0 */
    CLOVER_REFUSED_TOO_LONG = 1,            /* a text of more than 32,768 bytes: 0, 0 */
    CLOVER_REFUSED_FIRST_LINE = 2,          /* the plan's first line: line 1, 0 */
    CLOVER_REFUSED_MALFORMED = 3,           /* a line that is not of its form: line, column */
    CLOVER_REFUSED_OUT_OF_RANGE = 4,        /* a number or list of a well formed line: line, column */
    CLOVER_REFUSED_BYTES_FOLLOW = 5,        /* the last task line is not the last: the line after it, 0 */
    CLOVER_REFUSED_BOARD = 6,               /* two tasks overlap on one board: the two tasks */
    CLOVER_REFUSED_DRIVE = 7,               /* two tasks overlap and clash by drive: the two tasks */
    CLOVER_REFUSED_AFTER = 8,               /* planned before one it comes after has finished: the two tasks */
    CLOVER_REFUSED_UNSOUND = 9,             /* a plan not accepted, a book not sound, a sheet not its book's: 0, 0 */
    CLOVER_REFUSED_NO_TASK = 10,            /* the task is not in the plan: task, tick; of a drop or why task, 0 */
    CLOVER_REFUSED_NOT_RUNNING = 11,        /* it waits or has ended: task, tick; of why, it waits: task, 0 */
    CLOVER_REFUSED_BEFORE_CLOCK = 12,       /* the tick is before the clock: task, tick */
    CLOVER_REFUSED_NOT_PAST_START = 13,     /* the tick is at or before the task's start: task, tick */
    CLOVER_REFUSED_PAST_LIMIT = 14,         /* the tick is after the task's limit: task, tick */
    CLOVER_REFUSED_OTHER_OVERDUE = 15,      /* another running task's limit is before the tick: task, tick */
    CLOVER_REFUSED_SHORT_BUFFER = 16,       /* the writer's buffer: bytes needed, 0 */
    CLOVER_REFUSED_LATE_BEGINNING = 17,     /* no task is planned at tick 0: the least planned start, 0 */
    CLOVER_REFUSED_READY_LATE = 18,         /* a ready tick after the planned start: line, column */
    CLOVER_REFUSED_NOT_DROPPABLE = 19,      /* its start is known, or it is dropped, or waits for nobody: task, 0 */
    CLOVER_REFUSED_SHARED_HOLD = 20,        /* a shared hold in edition 2: line, column */
    CLOVER_REFUSED_NO_DRIVE = 21,           /* a drive outside 1 to 32: drive, 0 */
    CLOVER_REFUSED_LENGTH = 22,             /* a length outside 1 up to the planned one: the lowest such task, 0 */
    CLOVER_REFUSED_LOG_LINE = 23,           /* of a judged log: a line not of its form, a number out of range: line, 0 */
    CLOVER_REFUSED_LOG_TASK = 24,           /* a start or end missing, doubled or on the wrong board: task, 0 */
    CLOVER_REFUSED_LOG_LENGTH = 25,         /* a bad length: task, 0 */
    CLOVER_REFUSED_LOG_CLASH = 26,          /* a clash: the two tasks */
    CLOVER_REFUSED_LOG_START = 27,          /* a late or unready start: task, 0 */
    CLOVER_REFUSED_TOO_MANY_LOGS = 28       /* the 10,001st log of a year: 0, 0 */
};

/* ---- structs */

/* A refusal number and the two numbers that it says besides; all 0 where nothing is refused. */
typedef struct CloverAnswer {
    uint32_t code;
    uint32_t first;
    uint32_t second;
} CloverAnswer;
CLOVER_SIZE(CloverAnswer, 12);
CLOVER_PLACE(CloverAnswer, code, 0);
CLOVER_PLACE(CloverAnswer, first, 4);
CLOVER_PLACE(CloverAnswer, second, 8);

/* A plan. Nothing is kept past its last task, or past the last item of a list: such places hold 0. */
typedef struct CloverPlan {
    uint8_t edition;
    uint8_t boards;
    uint8_t tasks;
    uint8_t board[64];
    uint32_t ready[64];    /* 0 in edition 1 */
    uint32_t begin[64];    /* planned start */
    uint32_t finish[64];   /* planned finish */
    uint8_t holds[2048];   /* 32 places a task by rising drive: 2 * drive, where shared 2 * drive + 1 */
    uint8_t after[4096];   /* 64 places a task: rising task numbers */
} CloverPlan;
CLOVER_SIZE(CloverPlan, 6980);
CLOVER_PLACE(CloverPlan, edition, 0);
CLOVER_PLACE(CloverPlan, boards, 1);
CLOVER_PLACE(CloverPlan, tasks, 2);
CLOVER_PLACE(CloverPlan, board, 3);
CLOVER_PLACE(CloverPlan, ready, 68);
CLOVER_PLACE(CloverPlan, begin, 324);
CLOVER_PLACE(CloverPlan, finish, 580);
CLOVER_PLACE(CloverPlan, holds, 836);
CLOVER_PLACE(CloverPlan, after, 2884);

/* An answer, and the plan read; a plan of zeros where it is refused. */
typedef struct CloverReading {
    CloverAnswer answer;
    CloverPlan plan;
} CloverReading;
CLOVER_SIZE(CloverReading, 6992);
CLOVER_PLACE(CloverReading, answer, 0);
CLOVER_PLACE(CloverReading, plan, 12);

/* An answer, and how many bytes were written. */
typedef struct CloverWriteResult {
    CloverAnswer answer;
    uint32_t length;
} CloverWriteResult;
CLOVER_SIZE(CloverWriteResult, 16);
CLOVER_PLACE(CloverWriteResult, answer, 0);
CLOVER_PLACE(CloverWriteResult, length, 12);

/* A book: the plan, and what is known of the morning. Read it freely; change it by the calls below alone. */
typedef struct CloverBook {
    uint8_t edition;
    uint8_t boards;
    uint8_t tasks;
    uint8_t rule;          /* CLOVER_EARLY_START or CLOVER_CLASH */
    uint32_t clock;        /* the tick of the last accepted report, 0 before any */
    uint8_t board[64];
    uint32_t ready[64];
    uint32_t begin[64];
    uint32_t finish[64];
    uint32_t start[64];    /* 0 as long as it is not known */
    uint32_t end[64];      /* likewise */
    uint8_t mark[64];      /* CLOVER_WAITING, CLOVER_RUNNING or CLOVER_ENDED */
    uint8_t dropped[64];
    uint8_t holds[2048];
    uint8_t after[4096];
} CloverBook;
CLOVER_SIZE(CloverBook, 7624);
CLOVER_PLACE(CloverBook, edition, 0);
CLOVER_PLACE(CloverBook, boards, 1);
CLOVER_PLACE(CloverBook, tasks, 2);
CLOVER_PLACE(CloverBook, rule, 3);
CLOVER_PLACE(CloverBook, clock, 4);
CLOVER_PLACE(CloverBook, board, 8);
CLOVER_PLACE(CloverBook, ready, 72);
CLOVER_PLACE(CloverBook, begin, 328);
CLOVER_PLACE(CloverBook, finish, 584);
CLOVER_PLACE(CloverBook, start, 840);
CLOVER_PLACE(CloverBook, end, 1096);
CLOVER_PLACE(CloverBook, mark, 1352);
CLOVER_PLACE(CloverBook, dropped, 1416);
CLOVER_PLACE(CloverBook, holds, 1480);
CLOVER_PLACE(CloverBook, after, 3528);

/* An answer, and the book after it. */
typedef struct CloverBookResult {
    CloverAnswer answer;
    CloverBook book;
} CloverBookResult;
CLOVER_SIZE(CloverBookResult, 7636);
CLOVER_PLACE(CloverBookResult, answer, 0);
CLOVER_PLACE(CloverBookResult, book, 12);

/* An answer, and M; 0 where it is refused. */
typedef struct CloverFigure {
    CloverAnswer answer;
    uint32_t early;
} CloverFigure;
CLOVER_SIZE(CloverFigure, 16);
CLOVER_PLACE(CloverFigure, answer, 0);
CLOVER_PLACE(CloverFigure, early, 12);

/* An answer, and the exact figure; not `known`, with 0, stands for "none". */
typedef struct CloverExact {
    CloverAnswer answer;
    bool known;
    uint32_t early;
} CloverExact;
CLOVER_SIZE(CloverExact, 20);
CLOVER_PLACE(CloverExact, answer, 0);
CLOVER_PLACE(CloverExact, known, 12);
CLOVER_PLACE(CloverExact, early, 16);

/* What each task takes; where `dropped` is 1 it is dropped, and its length is not read. */
typedef struct CloverLengths {
    uint32_t length[64];
    uint8_t dropped[64];
} CloverLengths;
CLOVER_SIZE(CloverLengths, 320);
CLOVER_PLACE(CloverLengths, length, 0);
CLOVER_PLACE(CloverLengths, dropped, 256);

/* An answer, and each task's start and end; zeros where it is refused. */
typedef struct CloverTimetable {
    CloverAnswer answer;
    uint32_t start[64];
    uint32_t end[64];
} CloverTimetable;
CLOVER_SIZE(CloverTimetable, 524);
CLOVER_PLACE(CloverTimetable, answer, 0);
CLOVER_PLACE(CloverTimetable, start, 12);
CLOVER_PLACE(CloverTimetable, end, 268);

/* An answer, and the rule and lengths that a text asks for; Early Start and zeros where it is refused. */
typedef struct CloverLengthsResult {
    CloverAnswer answer;
    uint8_t rule;          /* CLOVER_EARLY_START or CLOVER_CLASH, as in a book */
    CloverLengths given;
} CloverLengthsResult;
CLOVER_SIZE(CloverLengthsResult, 336);
CLOVER_PLACE(CloverLengthsResult, answer, 0);
CLOVER_PLACE(CloverLengthsResult, rule, 12);
CLOVER_PLACE(CloverLengthsResult, given, 16);

/* An answer, and the chain: so many task numbers, the asked one first, then whose end let it start; 0 past the last. */
typedef struct CloverChain {
    CloverAnswer answer;
    uint32_t count;
    uint8_t links[64];
} CloverChain;
CLOVER_SIZE(CloverChain, 80);
CLOVER_PLACE(CloverChain, answer, 0);
CLOVER_PLACE(CloverChain, count, 12);
CLOVER_PLACE(CloverChain, links, 16);

/* A drive sheet. Of drive d the 8 places from 8 * (d - 1): running holders by rising number, 0 past the last; next[d - 1]: the next, or 0. */
typedef struct CloverSheet {
    uint8_t running[256];
    uint8_t next[32];
} CloverSheet;
CLOVER_SIZE(CloverSheet, 288);
CLOVER_PLACE(CloverSheet, running, 0);
CLOVER_PLACE(CloverSheet, next, 256);

/* An answer, and the sheet; zeros where it is refused. */
typedef struct CloverSheetResult {
    CloverAnswer answer;
    CloverSheet sheet;
} CloverSheetResult;
CLOVER_SIZE(CloverSheetResult, 300);
CLOVER_PLACE(CloverSheetResult, answer, 0);
CLOVER_PLACE(CloverSheetResult, sheet, 12);

/* An answer, the book after it, and its sheet; book and sheet as they were given where it is refused. */
typedef struct CloverBookAndSheet {
    CloverBookResult result;
    CloverSheet sheet;
} CloverBookAndSheet;
CLOVER_SIZE(CloverBookAndSheet, 7924);
CLOVER_PLACE(CloverBookAndSheet, result, 0);
CLOVER_PLACE(CloverBookAndSheet, sheet, 7636);

/* An answer, the running holders by rising number, 0 past the last, and the next holder, or 0. */
typedef struct CloverOnDrive {
    CloverAnswer answer;
    uint8_t running[8];
    uint8_t next;
} CloverOnDrive;
CLOVER_SIZE(CloverOnDrive, 24);
CLOVER_PLACE(CloverOnDrive, answer, 0);
CLOVER_PLACE(CloverOnDrive, running, 12);
CLOVER_PLACE(CloverOnDrive, next, 20);

/* An answer, and of each task with one start and one end in the log 1, its start and its end; zeros where it is refused by 9, 1 or 23. */
typedef struct CloverJudgedLog {
    CloverAnswer answer;
    uint8_t known[64];
    uint32_t start[64];
    uint32_t end[64];
} CloverJudgedLog;
CLOVER_SIZE(CloverJudgedLog, 588);
CLOVER_PLACE(CloverJudgedLog, answer, 0);
CLOVER_PLACE(CloverJudgedLog, known, 12);
CLOVER_PLACE(CloverJudgedLog, start, 76);
CLOVER_PLACE(CloverJudgedLog, end, 332);

/* The totals of a year, of zeros before the first log: accepted and refused logs; of board b at index b - 1 tasks ended, ticks early summed, greatest, least. */
typedef struct CloverTotals {
    uint32_t accepted;
    uint32_t refused;
    uint32_t ended[8];
    uint64_t sum[8];
    uint32_t greatest[8];  /* 0 where no task ended */
    uint32_t least[8];     /* likewise */
} CloverTotals;
CLOVER_SIZE(CloverTotals, 168);
CLOVER_PLACE(CloverTotals, accepted, 0);
CLOVER_PLACE(CloverTotals, refused, 4);
CLOVER_PLACE(CloverTotals, ended, 8);
CLOVER_PLACE(CloverTotals, sum, 40);
CLOVER_PLACE(CloverTotals, greatest, 104);
CLOVER_PLACE(CloverTotals, least, 136);

/* An answer, what was found of the log, and the totals after it; as they were given, and the log not looked at, where it is refused. */
typedef struct CloverAddResult {
    CloverAnswer answer;
    CloverJudgedLog judged;
    CloverTotals totals;
} CloverAddResult;
CLOVER_SIZE(CloverAddResult, 768);
CLOVER_PLACE(CloverAddResult, answer, 0);
CLOVER_PLACE(CloverAddResult, judged, 12);
CLOVER_PLACE(CloverAddResult, totals, 600);

/* ---- plans */

/* The plan that a text says. Refused by 1 to 8, 17, 18 or 20: a plan of zeros. */
CLOVER_RESULT CloverReading clover_read_plan(const uint8_t *text, size_t text_length);

/* The same of a text of edition 2 in which drives may be shared: each is held exclusively. Edition 1 is refused by 2; a refusal: a plan of zeros. */
CLOVER_RESULT CloverReading clover_read_exclusive(const uint8_t *text, size_t text_length);

/* What a plan that is handed in is judged: accepted, or 9, 17, 6, 7 or 8 with its two numbers. */
CLOVER_RESULT CloverAnswer clover_judge_plan(CloverPlan plan);

/* Whether the plan is accepted. */
CLOVER_RESULT bool clover_is_accepted(CloverPlan plan);

/* Writes the plan's text into the buffer. Refused by 9, or by 16 with the bytes needed: no byte is changed, length 0. */
CLOVER_RESULT CloverWriteResult clover_write_plan(CloverPlan plan, uint8_t *out, size_t out_length);

/* A plan of edition 1 made edition 2, each hold exclusive. Refused by 9 (edition 2 too) or 7: a plan of zeros. */
CLOVER_RESULT CloverReading clover_convert(CloverPlan plan);

/* ---- a book, kept report by report */

/* A book on the plan, by Early Start or the clash rule, with the starts known at once. Refused by 9: a book of zeros. */
CLOVER_RESULT CloverBookResult clover_open_book(CloverPlan plan, bool clash);

/* The book after a task's end, with the starts that it causes. Refused by 9 to 15: the book as it was given. */
CLOVER_RESULT CloverBookResult clover_report(CloverBook book, uint32_t task, uint32_t tick);

/* The book after a waiting task is dropped. Refused by 9, 10 or 19: the book as it was given. */
CLOVER_RESULT CloverBookResult clover_drop(CloverBook book, uint32_t task);

/* M: how early everything that is left will be at least. Refused by 9: 0. */
CLOVER_RESULT CloverFigure clover_minimum_early(CloverBook book);

/* The exact figure: the largest that is still true of all that has not started. Refused by 9: "none". */
CLOVER_RESULT CloverExact clover_exact_early(CloverBook book);

/* Why a task started when it did. Refused by 9, 10 or 11: no link. */
CLOVER_RESULT CloverChain clover_why(CloverBook book, uint32_t task);

/* Whether the book is sound, as all are that the calls above hand back. */
CLOVER_RESULT bool clover_is_sound(CloverBook book);

/* ---- a drive sheet beside the book */

/* The book's sheet: who is on each drive now, and who is next. Refused by 9: a sheet of zeros. */
CLOVER_RESULT CloverSheetResult clover_make_sheet(CloverBook book);

/* clover_report with the sheet kept. Refused by 9 to 15, by 9 also where the sheet is not the book's: both as they were given. */
CLOVER_RESULT CloverBookAndSheet clover_report_sheet(CloverBook book, CloverSheet sheet, uint32_t task, uint32_t tick);

/* clover_drop with the sheet kept. Refused by 9, 10 or 19: both as they were given. */
CLOVER_RESULT CloverBookAndSheet clover_drop_sheet(CloverBook book, CloverSheet sheet, uint32_t task);

/* Who is on the drive, and who is next. Refused by 9, then by 21: nobody. */
CLOVER_RESULT CloverOnDrive clover_on_drive(CloverBook book, CloverSheet sheet, uint32_t drive);

/* ---- every start and end at once, without reports */

/* The timetable of the plan by that rule and those lengths. Refused by 9, 22 or 19: zeros. */
CLOVER_RESULT CloverTimetable clover_timetable(CloverPlan plan, bool clash, CloverLengths given);

/* What a text of lengths asks of the engine. Refused by 1, 3 or 4: Early Start and zeros. */
CLOVER_RESULT CloverLengthsResult clover_read_lengths(CloverPlan plan, const uint8_t *text, size_t text_length);

/* ---- logs of other schools */

/* What a log without drops is judged by the plan. Refused by 9, 1 or 23: zeros; by 24 to 27: what was found all the same. */
CLOVER_RESULT CloverJudgedLog clover_judge_log(CloverPlan plan, const uint8_t *log, size_t log_length);

/* The totals with a log more; one that is refused by clover_judge_log is counted apart. Refused by 9 or 28: the totals as they were given. */
CLOVER_RESULT CloverAddResult clover_add_log(CloverTotals totals, CloverPlan plan, const uint8_t *log, size_t log_length);

/* ---- texts in, a text out: how many bytes it has. A refusal is the text `refused`, number and its two numbers. */

/* The log of a plan text and its ends. Into a buffer shorter than CLOVER_LONGEST_LOG nothing is written: 0. */
CLOVER_RESULT size_t clover_run_log(const uint8_t *plan, size_t plan_length, const uint8_t *ends, size_t ends_length, uint8_t *out, size_t out_length);

/* The plan text in edition 2. Into a buffer shorter than CLOVER_LONGEST_CONVERTED nothing is written: 0. */
CLOVER_RESULT size_t clover_convert_text(const uint8_t *text, size_t text_length, uint8_t *out, size_t out_length);

/* The timetable of a plan text and its lengths. Into a buffer shorter than CLOVER_LONGEST_TIMETABLE nothing is written: 0. */
CLOVER_RESULT size_t clover_write_timetable(const uint8_t *plan, size_t plan_length, const uint8_t *lengths, size_t lengths_length, uint8_t *out, size_t out_length);

/* The ticks early of a judged log's tasks, then `accepted` or `refused`. Into a buffer shorter than CLOVER_LONGEST_JUDGED nothing is written: 0. */
CLOVER_RESULT size_t clover_write_judged(const uint8_t *plan, size_t plan_length, const uint8_t *log, size_t log_length, uint8_t *out, size_t out_length);

/* The report of a year, and where logs were left over (`past`) its refusal by 28. Into a buffer shorter than CLOVER_LONGEST_REPORT nothing is written: 0. */
CLOVER_RESULT size_t clover_write_report(CloverTotals totals, bool past, uint8_t *out, size_t out_length);

/* ---- null pointers: with length 0 the calls are handed another pointer, which is never read or written */
static inline const uint8_t *clover_bytes(const uint8_t *bytes) {
    static const uint8_t none = 0;
    return bytes ? bytes : &none;
}
static inline uint8_t *clover_room(uint8_t *bytes) {
    static uint8_t none;
    return bytes ? bytes : &none;
}
#define clover_read_plan(text, text_length) clover_read_plan(clover_bytes(text), (text_length))
#define clover_read_exclusive(text, text_length) clover_read_exclusive(clover_bytes(text), (text_length))
#define clover_write_plan(plan, out, out_length) clover_write_plan((plan), clover_room(out), (out_length))
#define clover_read_lengths(plan, text, text_length) clover_read_lengths((plan), clover_bytes(text), (text_length))
#define clover_judge_log(plan, log, log_length) clover_judge_log((plan), clover_bytes(log), (log_length))
#define clover_add_log(totals, plan, log, log_length) clover_add_log((totals), (plan), clover_bytes(log), (log_length))
#define clover_run_log(plan, plan_length, ends, ends_length, out, out_length) clover_run_log(clover_bytes(plan), (plan_length), clover_bytes(ends), (ends_length), clover_room(out), (out_length))
#define clover_convert_text(text, text_length, out, out_length) clover_convert_text(clover_bytes(text), (text_length), clover_room(out), (out_length))
#define clover_write_timetable(plan, plan_length, lengths, lengths_length, out, out_length) clover_write_timetable(clover_bytes(plan), (plan_length), clover_bytes(lengths), (lengths_length), clover_room(out), (out_length))
#define clover_write_judged(plan, plan_length, log, log_length, out, out_length) clover_write_judged(clover_bytes(plan), (plan_length), clover_bytes(log), (log_length), clover_room(out), (out_length))
#define clover_write_report(totals, past, out, out_length) clover_write_report((totals), (past), clover_room(out), (out_length))

#ifdef __cplusplus
}
#endif
#undef CLOVER_PLACE
#undef CLOVER_SIZE
#undef CLOVER_FACT

#endif
