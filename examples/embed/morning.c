// A morning through the library: a plan and the ends of its tasks are read, and it is printed who starts, who
// is on a drive and why a task started. README.md beside this file tells how to build and run it.
#include <cloverdusk.h>

#include <stdio.h>
#include <stdlib.h>
#include <string.h>

static FILE *opened(const char *name) {
    FILE *file = fopen(name, "rb");
    if (file == NULL) {
        perror(name);
        exit(2);
    }
    return file;
}

// A text that is too long is read one byte too far, so that the library sees it and refuses it.
static CloverReading read_plan(const char *name) {
    static uint8_t text[CLOVER_LONGEST_TEXT + 1];
    FILE *file = opened(name);
    size_t length = fread(text, 1, sizeof text, file);
    fclose(file);
    return clover_read_plan(text, length);
}

static bool is_accepted(CloverAnswer answer) {
    if (answer.code == CLOVER_ACCEPTED) return true;
    printf("refused\t%u\t%u\t%u\n", answer.code, answer.first, answer.second);
    return false;
}

// Who starts: each task whose start became known by the step from the one book to the other.
static void print_starts(const CloverBook *before, const CloverBook *book) {
    for (unsigned i = 0; i < book->tasks; i++) {
        if (before->mark[i] != CLOVER_WAITING || book->mark[i] == CLOVER_WAITING) continue;
        const char *word = book->dropped[i] == CLOVER_DROPPED ? "skip" : "start";
        printf("%s\t%u\t%u\t%u\t%u\n", word, i + 1, book->board[i], book->start[i], book->begin[i] - book->start[i]);
    }
}

// Who is on the drive, and who is next.
static void print_drive(const CloverBook *book, const CloverSheet *sheet, uint32_t drive) {
    CloverOnDrive on = clover_on_drive(*book, *sheet, drive);
    if (!is_accepted(on.answer)) return;
    printf("drive\t%u\t%s", drive, on.running[0] == 0 ? "-" : "");
    for (unsigned i = 0; i < CLOVER_RUNNING_PLACES && on.running[i] != 0; i++)
        printf("%s%u", i == 0 ? "" : ",", on.running[i]);
    if (on.next == 0)
        printf("\t-\n");
    else
        printf("\t%u\n", on.next);
}

// Why the task started: itself, then whose end let it start, and so on.
static void print_why(const CloverBook *book, uint32_t task) {
    CloverChain chain = clover_why(*book, task);
    if (!is_accepted(chain.answer)) return;
    for (uint32_t link = 0; link < chain.count; link++) {
        unsigned i = chain.links[link] - 1u;
        printf("link\t%u\t%u\t%u\t", i + 1, book->board[i], book->start[i]);
        if (book->mark[i] == CLOVER_ENDED)
            printf("%u\n", book->end[i]);
        else
            printf("-\n");
    }
    printf("why\t%u\t%u\n", task, chain.count);
}

static void print_state(const CloverBook *before, const CloverBook *book, const CloverSheet *sheet, uint32_t drive) {
    print_starts(before, book);
    printf("early\t%u\t%u\n", book->clock, clover_minimum_early(*book).early);
    print_drive(book, sheet, drive);
}

// Takes a line of the ends, and prints what it changes.
static void take_line(const char *line, CloverBook *book, CloverSheet *sheet, uint32_t drive) {
    uint32_t task, tick;
    bool is_end = sscanf(line, "end\t%u\t%u", &task, &tick) == 2;
    if (!is_end && sscanf(line, "drop\t%u", &task) != 1) {
        fprintf(stderr, "neither an end nor a drop: %s", line);
        exit(2);
    }
    CloverBookAndSheet kept = is_end ? clover_report_sheet(*book, *sheet, task, tick) : clover_drop_sheet(*book, *sheet, task);
    if (!is_accepted(kept.result.answer)) return;
    CloverBook before = *book;
    *book = kept.result.book, *sheet = kept.sheet;
    unsigned board = book->board[task - 1];
    if (is_end)
        printf("end\t%u\t%u\t%u\t%u\n", task, board, tick, book->finish[task - 1] - tick);
    else
        printf("drop\t%u\t%u\n", task, board);
    print_state(&before, book, sheet, drive);
}

int main(int count, char **words) {
    if (count != 5) {
        fprintf(stderr, "use: morning PLAN ENDS DRIVE TASK\n");
        return 2;
    }
    uint32_t drive = (uint32_t)strtoul(words[3], NULL, 10), task = (uint32_t)strtoul(words[4], NULL, 10);
    CloverReading reading = read_plan(words[1]);
    if (!is_accepted(reading.answer)) return 0;
    FILE *ends = opened(words[2]);
    char line[66];
    bool has_line = fgets(line, sizeof line, ends) != NULL, clash = has_line && strcmp(line, "rule\tclash\n") == 0;
    CloverBook book = clover_open_book(reading.plan, clash).book;
    CloverSheet sheet = clover_make_sheet(book).sheet;
    static const CloverBook nothing_known;
    printf(clash ? "run\t2\t%u\t%u\tclash\n" : "run\t1\t%u\t%u\n", book.boards, book.tasks);
    print_state(&nothing_known, &book, &sheet, drive);
    if (clash) has_line = fgets(line, sizeof line, ends) != NULL;
    for (; has_line; has_line = fgets(line, sizeof line, ends) != NULL) take_line(line, &book, &sheet, drive);
    fclose(ends);
    print_why(&book, task);
    return 0;
}
