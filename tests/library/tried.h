/*
 * A call tried on something given: its number beside the expected one, and the stack that it takes beside the header's figure.
 */
#include "oven.h"
#include "painted.h"

#include <stdio.h>

/* What a call is given, and what it answers. */
static struct {
    oven_board board;
    uint32_t depth, ticket, grade, kind;
    oven_wait wait;
    size_t length;
    oven_tally tally;
    oven_page page;
    oven_figures closing;
    oven_racks racks;
} given;

static struct {
    bool sound, full;
    uint8_t number;
    size_t printed;
    oven_opened opened;
    oven_admitted admitted;
    oven_closed closed;
    oven_promised promised;
    oven_withdrawn withdrawn;
    oven_counted counted;
    oven_tally tally;
    oven_page page;
    oven_handed_over handed_over;
    oven_planned planned;
} answer;

static oven_entry list[OVEN_PLACES];
static uint32_t tickets[OVEN_PLACES];
static uint8_t grades[OVEN_PLACES];
static oven_slot slots[OVEN_PLACES];
static uint8_t text[OVEN_PAGE_LENGTH];

static void open_board(void) { answer.opened = oven_open(given.depth); }
static void is_sound(void) { answer.sound = oven_sound(given.board); }
static void admit(void) { answer.admitted = oven_admit(given.board, given.ticket, given.wait, given.grade); }
static void close_into(void) { answer.closed = oven_close_into(given.board, list, given.length); }
static void close_parts(void) {
    answer.closed = oven_close(given.board, tickets, given.length, grades, given.length, slots, given.length);
}
static void promise(void) { answer.promised = oven_promise(given.board); }
static void withdraw(void) { answer.withdrawn = oven_withdraw(given.board, given.ticket); }
static void zero(void) { answer.tally = oven_zero(); }
static void note(void) { answer.number = oven_note(&given.tally, given.kind, given.grade); }
static void count(void) { answer.counted = oven_count(given.tally, given.kind, given.grade); }
static void page_new(void) { answer.page = oven_page_new(); }
static void page_hand_over(void) { answer.handed_over = oven_page_hand_over(given.page, given.closing); }
static void page_full(void) { answer.full = oven_page_full(given.page); }
static void page_print(void) { answer.printed = oven_page_print(given.page, text, given.length); }
static void best_day(void) { answer.planned = oven_best_day(given.racks); }

/* The calls, with the header's figure, the loader's part of it, and the most that was seen where nothing is bound. */
enum call { OPEN, SOUND, ADMIT, CLOSE_INTO, CLOSE, PROMISE, WITHDRAW, ZERO, NOTE, COUNT, PAGE_NEW, PAGE_HAND_OVER, PAGE_FULL, PAGE_PRINT, BEST_DAY, CALLS };

static struct {
    const char *name;
    void (*run)(void);
    size_t figure, loader, most;
} calls[CALLS] = {
    {"oven_open", open_board, OVEN_STACK_OPEN, OVEN_STACK_LOADER, 0},
    {"oven_sound", is_sound, OVEN_STACK_SOUND, OVEN_STACK_LOADER, 0},
    {"oven_admit", admit, OVEN_STACK_ADMIT, OVEN_STACK_LOADER, 0},
    {"oven_close_into", close_into, OVEN_STACK_CLOSE_INTO, OVEN_STACK_LOADER, 0},
    {"oven_close", close_parts, OVEN_STACK_CLOSE, OVEN_STACK_LOADER, 0},
    {"oven_promise", promise, OVEN_STACK_PROMISE, OVEN_STACK_LOADER, 0},
    {"oven_withdraw", withdraw, OVEN_STACK_WITHDRAW, OVEN_STACK_LOADER, 0},
    {"oven_zero", zero, OVEN_STACK_ZERO, 0, 0},
    {"oven_note", note, OVEN_STACK_NOTE, 0, 0},
    {"oven_count", count, OVEN_STACK_COUNT, OVEN_STACK_LOADER, 0},
    {"oven_page_new", page_new, OVEN_STACK_PAGE_NEW, OVEN_STACK_LOADER, 0},
    {"oven_page_hand_over", page_hand_over, OVEN_STACK_PAGE_HAND_OVER, OVEN_STACK_LOADER, 0},
    {"oven_page_full", page_full, OVEN_STACK_PAGE_FULL, 0, 0},
    {"oven_page_print", page_print, OVEN_STACK_PAGE_PRINT, OVEN_STACK_LOADER, 0},
    {"oven_best_day", best_day, OVEN_STACK_BEST_DAY, OVEN_STACK_LOADER, 0},
};

static unsigned passed, failed;

static void expect(bool holds, enum call call, const char *what) {
    if (holds) {
        passed++;
        return;
    }
    failed++;
    if (failed <= 5) printf("%s: %s\n", calls[call].name, what);
}

static void measure(enum call call) {
    size_t taken = stack_of(calls[call].run);
    if (calls[call].most < taken) calls[call].most = taken;
    expect(taken <= calls[call].figure - calls[call].loader, call, "takes more stack than the header says");
}

/* Each call as the first of a process, on zeros, with room for a page; and once here, so that all is bound that the calls need. */
static void try_first(void) {
    given.length = OVEN_PAGE_LENGTH;
    for (int call = 0; call < CALLS; call++) {
        size_t taken = stack_of_first(calls[call].run);
        expect(taken <= calls[call].figure, call, "takes more stack at first than the header says");
    }
    for (int call = 0; call < CALLS; call++) calls[call].run();
}

static void try_open(uint32_t depth, uint8_t number) {
    given.depth = depth;
    measure(OPEN);
    expect(answer.opened.refusal == number, OPEN, "another number");
}

static void try_sound(oven_board board, bool sound) {
    given.board = board;
    measure(SOUND);
    expect(answer.sound == sound, SOUND, "another answer");
}

static void try_admit(oven_board board, uint32_t ticket, uint32_t wait, uint32_t grade, uint8_t number) {
    given.board = board;
    given.ticket = ticket;
    given.wait.slots = wait;
    given.grade = grade;
    measure(ADMIT);
    expect(answer.admitted.refusal == number, ADMIT, "another number");
}

static void try_close(oven_board board, size_t length, uint8_t number) {
    given.board = board;
    given.length = length;
    measure(CLOSE_INTO);
    expect(answer.closed.refusal == number, CLOSE_INTO, "another number");
    measure(CLOSE);
    expect(answer.closed.refusal == number, CLOSE, "another number");
}

static void try_promise(oven_board board, uint8_t number) {
    given.board = board;
    measure(PROMISE);
    expect(answer.promised.refusal == number, PROMISE, "another number");
    expect(answer.promised.wait.slots <= (number ? 0 : OVEN_LONGEST_WAIT), PROMISE, "no such wait");
}

static void try_withdraw(oven_board board, uint32_t ticket, uint8_t number) {
    given.board = board;
    given.ticket = ticket;
    measure(WITHDRAW);
    expect(answer.withdrawn.refusal == number, WITHDRAW, "another number");
}

static void try_count(uint32_t kind, uint32_t grade, uint32_t before, uint8_t number) {
    given.kind = kind;
    given.grade = grade;
    for (size_t i = 0; i < OVEN_KINDS * OVEN_GRADES; i++) given.tally.counts[i] = before;
    measure(COUNT);
    expect(answer.counted.refusal == number, COUNT, "another number");
    measure(NOTE);
    expect(answer.number == number, NOTE, "another number");
}

static void try_page_new(void) {
    measure(PAGE_NEW);
    expect(answer.page.count == 0, PAGE_NEW, "another page");
}

static void try_hand_over(oven_page page, oven_figures closing, uint8_t number) {
    given.page = page;
    given.closing = closing;
    measure(PAGE_HAND_OVER);
    expect(answer.handed_over.refusal == number, PAGE_HAND_OVER, "another number");
}

static void try_page_full(oven_page page, bool full) {
    given.page = page;
    measure(PAGE_FULL);
    expect(answer.full == full, PAGE_FULL, "another answer");
}

static void try_print(oven_page page, size_t length, size_t printed) {
    given.page = page;
    given.length = length;
    measure(PAGE_PRINT);
    expect(answer.printed == printed, PAGE_PRINT, "another end");
}

static void try_best_day(oven_racks racks, uint8_t number) {
    given.racks = racks;
    measure(BEST_DAY);
    expect(answer.planned.refusal == number, BEST_DAY, "another number");
}
