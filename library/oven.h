/*
 * The oven board, for callers in C and C++. Link with liboven.a (x86-64 Linux); it needs nothing but memcpy and memset.
 *
 * An oven bakes one rack in each slot. A rack comes with a ticket, a wait (how many slots it can still be baked in, this one
 * counted) and a grade, 0 the best. At the close of a slot the board names the rack to bake and the racks to give up. The sheet for
 * the oven door has a page for every 48 closed slots.
 *
 * A board is a struct that the caller keeps, and so is a page. It goes into a call by value and comes back in the answer: keep what
 * came back, also after a refusal, and write nothing into it yourself. The calls keep nothing between them, so different boards and
 * pages may be used at the same time. Whatever numbers a call is given, it returns, and says by the number in its answer whether it
 * refused.
 */
#ifndef OVEN_H
#define OVEN_H

#include <stdbool.h>
#include <stddef.h>
#include <stdint.h>

#ifdef __cplusplus
extern "C" {
#endif

/* The four limits of a board. */
#define OVEN_LONGEST_WAIT 24    /* longest wait */
#define OVEN_MOST_IN_SLOT 8     /* most racks admitted in a slot */
#define OVEN_PLACES 192         /* most racks held; a lent list has at least as many entries */
#define OVEN_LAST_SLOT 1000000  /* last slot of a book */

/* A tally has a count for each of four kinds of event and each of eight grades. */
#define OVEN_KINDS 4
#define OVEN_GRADES 8

/* A page of the sheet for the oven door: slots on it, and bytes of its text, 50 lines of 24 and a line end each. */
#define OVEN_PAGE_SLOTS 48
#define OVEN_PAGE_LENGTH 1250

/* The best day in hindsight: most racks of a list. Its slots are 1 to 64. */
#define OVEN_HINDSIGHT_RACKS 64
#define OVEN_HINDSIGHT_SLOTS 64

/* The numbers of the refusals. A call checks in this order, and gives the first that holds. */
enum oven_refusal {
    OVEN_NOT_REFUSED = 0,
    OVEN_REFUSED_DEPTH = 1,         /* opening: depth above 3; the returned board is all zero */
    OVEN_REFUSED_UNSOUND = 2,       /* admitting, closing, promising, withdrawing: board not sound */
    OVEN_REFUSED_BOOK_ENDED = 3,    /* admitting, closing, promising, withdrawing: slot is 1,000,001 */
    OVEN_REFUSED_TICKET = 4,        /* admitting: ticket not above the highest so far */
    OVEN_REFUSED_WAIT = 5,          /* admitting: wait not 1 to OVEN_LONGEST_WAIT */
    OVEN_REFUSED_GRADE = 6,         /* admitting: grade not below 2^D, D the depth */
    OVEN_REFUSED_SLOT_FULL = 7,     /* admitting: eight racks on the board were admitted in this slot */
    OVEN_REFUSED_LIST_SHORT = 8,    /* closing: lent list has fewer than OVEN_PLACES entries */
    OVEN_REFUSED_NO_SUCH_COUNT = 9, /* tally: kind above 3 or grade above 7 */
    OVEN_REFUSED_COUNT_FULL = 10,   /* tally: that count is already 8,000,000 */
    OVEN_REFUSED_OFF_SHEET = 16,    /* sheet: slot above 1,000,000, grade above 7 or more than 255 given up */
    OVEN_REFUSED_NOT_WAITING = 17,  /* withdrawing: ticket not on the board, or admitted in this slot */
    OVEN_REFUSED_TOO_MANY = 18,     /* best day: more than OVEN_HINDSIGHT_RACKS racks */
    OVEN_REFUSED_WINDOW = 19        /* best day: a slot not 1 to OVEN_HINDSIGHT_SLOTS, or a last slot before the first */
};

/* The kinds of event that a tally counts. */
enum oven_kind {
    OVEN_KIND_ADMITTED = 0,
    OVEN_KIND_BAKED = 1,
    OVEN_KIND_GIVEN_UP = 2,
    OVEN_KIND_WITHDRAWN = 3
};

/* A number of slots counted from the present one. It cannot be compared with a slot's number. */
typedef struct oven_wait {
    uint32_t slots;
} oven_wait;

/* The number of a slot in the day book, from 1. */
typedef struct oven_slot {
    uint32_t number;
} oven_slot;

/* A place of the board: a rack, or all zero. It can be baked up to its last slot: the slot of admitting + its wait - 1. */
typedef struct oven_place {
    uint32_t ticket;
    oven_slot admitted;
    oven_slot last;
    uint8_t grade;
} oven_place;

/* A board: its racks stand in the first `count` places, by rising ticket. Grades are 0 to 2^depth - 1. */
typedef struct oven_board {
    uint8_t depth;
    oven_slot slot;   /* the present slot */
    uint32_t highest; /* the highest ticket so far */
    size_t count;
    oven_place places[OVEN_PLACES];
} oven_board;

/* A rack given up. */
typedef struct oven_entry {
    uint32_t ticket;
    uint8_t grade;
    oven_slot admitted;
} oven_entry;

/* The count of a kind and a grade stands at kind * OVEN_GRADES + grade. */
typedef struct oven_tally {
    uint32_t counts[OVEN_KINDS * OVEN_GRADES];
} oven_tally;

/* A closing as the sheet has it: its slot, the rack baked, ticket 0 for none, and how many racks are given up. */
typedef struct oven_figures {
    oven_slot slot;
    uint32_t ticket;
    uint32_t grade;
    uint32_t given_up;
} oven_figures;

/* A page of the sheet: its closings stand in the first `count` places, in all 48 where the count is more. */
typedef struct oven_page {
    size_t count;
    oven_figures closings[OVEN_PAGE_SLOTS];
} oven_page;

/* The slots in which a rack can be baked. */
typedef struct oven_window {
    oven_slot first;
    oven_slot last;
} oven_window;

/* A list of racks, best first, in the first `count` places; what the others hold is not looked at. */
typedef struct oven_racks {
    size_t count;
    oven_window windows[OVEN_HINDSIGHT_RACKS];
} oven_racks;

/* The answers. Each has the number of the refusal; where it is not 0, all else in it but board, tally and page is 0. */
typedef struct oven_opened {
    uint8_t refusal;
    oven_board board;
} oven_opened;

typedef struct oven_admitted {
    uint8_t refusal;
    oven_slot last; /* the rack's last slot */
    oven_board board;
} oven_admitted;

typedef struct oven_closed {
    uint8_t refusal;
    uint32_t ticket; /* the rack baked; 0 where the board had no racks */
    uint8_t grade;
    uint32_t given_up;  /* how many racks are given up */
    uint32_t shortfall; /* of the racks before the bake, the fewest that any plan gives up if nothing more arrives */
    oven_board board;
} oven_closed;

typedef struct oven_promised {
    uint8_t refusal;
    oven_wait wait; /* the least that can be promised, 1 to OVEN_LONGEST_WAIT; 0 for none */
} oven_promised;

typedef struct oven_withdrawn {
    uint8_t refusal;
    uint8_t grade; /* of the rack taken off, for the tally */
    oven_board board;
} oven_withdrawn;

typedef struct oven_counted {
    uint8_t refusal;
    oven_tally tally;
} oven_counted;

typedef struct oven_handed_over {
    uint8_t refusal;
    oven_page page;
} oven_handed_over;

typedef struct oven_planned {
    uint8_t refusal;
    uint32_t slots[OVEN_HINDSIGHT_RACKS]; /* the slot of each rack in the list's order; 0 for a rack left out and past the last one */
} oven_planned;

/*
 * The calls. OVEN_STACK_.. is the stack, in bytes, that suffices for a call: its own, and the board, tally or page that it is given
 * and answers by value. Where it copies them it has room for the system's loader too, which may bind memcpy or memset at
 * the first call; how much that takes depends on the processor.
 */
#define OVEN_STACK_LOADER 4096
#define OVEN_STACK_BOARDS(boards) ((boards) * sizeof(oven_board) + 1024 + OVEN_STACK_LOADER)

/* A new board of this depth, 0 to 3: slot 1, highest ticket 0, no racks. Refuses with 1; the board is then all zero. */
#define OVEN_STACK_OPEN OVEN_STACK_BOARDS(1)
oven_opened oven_open(uint32_t depth);

/*
 * Whether a board is sound. A board that comes back from opening, admitting, closing or withdrawing is, unless the number is 1 or 2.
 */
#define OVEN_STACK_SOUND OVEN_STACK_BOARDS(2)
bool oven_sound(oven_board board);

/*
 * Admits a rack in the present slot and answers its last slot. Tickets rise: each is above all before it. Refuses with 2, 3, 4, 5,
 * 6 or 7; the board then comes back as it was.
 */
#define OVEN_STACK_ADMIT OVEN_STACK_BOARDS(5)
oven_admitted oven_admit(oven_board board, uint32_t ticket, oven_wait wait, uint32_t grade);

/*
 * Closes the present slot: answers the rack to bake and the shortfall, gives up every other rack whose last slot it is, and moves to
 * the next slot.
 * The racks given up are written from the start of the list that the caller lends, by grade from best to worst, within a grade by
 * rising ticket; the entries after them keep what they had. Refuses with 2, 3 or 8; board and list are then as they were. `list`
 * points to `length` entries.
 */
#define OVEN_STACK_CLOSE_INTO OVEN_STACK_BOARDS(10)
oven_closed oven_close_into(oven_board board, oven_entry *list, size_t length);

/*
 * The same with the list in three parts: tickets, grades, and the slots of admitting. A rack given up has the same place in each.
 * The list has as many entries as its shortest part. The parts do not overlap.
 */
#define OVEN_STACK_CLOSE OVEN_STACK_BOARDS(8)
oven_closed oven_close(oven_board board, uint32_t *tickets, size_t tickets_length, uint8_t *grades, size_t grades_length,
                       oven_slot *slots, size_t slots_length);

/*
 * What can still be promised: the least wait, 1 to OVEN_LONGEST_WAIT, such that some plan from the present slot on bakes one rack more
 * of that wait and every rack on the board, if nothing else arrives; slots past the book's last count. Then it can be promised with a
 * longer wait too. 0 says that there is no such wait. Refuses with 2 or 3. The board stays as it is.
 */
#define OVEN_STACK_PROMISE OVEN_STACK_BOARDS(4)
oven_promised oven_promise(oven_board board);

/*
 * Withdraws a rack that is waiting since an earlier slot: takes it off the board and answers its grade. Slot and highest ticket stay,
 * so the ticket is not admitted again. Refuses with 2, 3 or 17; the board then comes back as it was.
 */
#define OVEN_STACK_WITHDRAW OVEN_STACK_BOARDS(6)
oven_withdrawn oven_withdraw(oven_board board, uint32_t ticket);

/* A tally with every count 0. */
#define OVEN_STACK_ZERO 256
oven_tally oven_zero(void);

/* Takes in one event, of an oven_kind and a grade. Answers 0, or refuses with 9 or 10; the tally is then as it was. */
#define OVEN_STACK_NOTE 512
uint8_t oven_note(oven_tally *tally, uint32_t kind, uint32_t grade);

/* The same with the tally by value: the answer has the tally after the event. */
#define OVEN_STACK_COUNT (1024 + OVEN_STACK_LOADER)
oven_counted oven_count(oven_tally tally, uint32_t kind, uint32_t grade);

/* A page without closings. */
#define OVEN_STACK_PAGE_NEW (1024 + OVEN_STACK_LOADER)
oven_page oven_page_new(void);

/*
 * Hands a closing to the page; the answer has the page with it. A full page takes no more: the closing begins the next page and is
 * alone on it, so a page is printed once it is full. Refuses with 16; the page then comes back as it was.
 */
#define OVEN_STACK_PAGE_HAND_OVER (4096 + OVEN_STACK_LOADER)
oven_handed_over oven_page_hand_over(oven_page page, oven_figures closing);

/* Whether the page is full: it has 48 closings. */
#define OVEN_STACK_PAGE_FULL 1536
bool oven_page_full(oven_page page);

/*
 * Prints the page, full or not: writes the bytes of its text at the start of `out` and answers how many they are, OVEN_PAGE_LENGTH;
 * the bytes after them keep what they had. `out` points to `length` bytes; where these are fewer it writes nothing and answers 0.
 * A figure past the limits of number 16, which only a page written by the caller has, shows the last digits that fit.
 */
#define OVEN_STACK_PAGE_PRINT (2048 + OVEN_STACK_LOADER)
size_t oven_page_print(oven_page page, uint8_t *out, size_t length);

/*
 * The best day in hindsight, for racks whose windows are all known: bakes, for every m at once, as many of the first m racks as any
 * plan can. It stands apart from the boards. Refuses with 18 or 19; every slot is then 0.
 */
#define OVEN_STACK_BEST_DAY (8192 + OVEN_STACK_LOADER)
oven_planned oven_best_day(oven_racks racks);

#ifdef __cplusplus
}
#endif

#endif
