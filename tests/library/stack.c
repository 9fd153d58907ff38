/*
 * Each call on empty and full boards and pages, refused ones too: its number, and the stack that it takes. The header's figure
 * suffices, also where the call is a process's first, and without the loader's part it is not more than twice what is taken at the
 * most. The last line is 'N passed, M failed'.
 */
#include "tried.h"

/* A board of this depth in slot 100 with so many racks, eight a slot, the last of them in this one; all due now, or spread. */
static oven_board board_with(uint32_t depth, uint32_t held, bool due) {
    oven_board board = oven_open(depth).board;
    board.slot.number = 100;
    board.highest = held;
    board.count = held;
    for (uint32_t i = 0; i < held; i++) {
        uint32_t admitted = 100 - (held - 1 - i) / OVEN_MOST_IN_SLOT;
        uint32_t longest = admitted + OVEN_LONGEST_WAIT - 100;
        uint32_t last = due ? 100 : 100 + i * 7 % longest;
        oven_place place = {i + 1, {admitted}, {last}, (uint8_t)(i % (1u << depth))};
        board.places[i] = place;
    }
    return board;
}

/* Every answer that a sound board can give but row 3's. */
static void try_board(uint32_t depth, uint32_t held, bool due) {
    oven_board board = board_with(depth, held, due);
    uint32_t ticket = board.highest + 1;
    uint8_t number = held < OVEN_MOST_IN_SLOT ? OVEN_NOT_REFUSED : OVEN_REFUSED_SLOT_FULL;
    try_sound(board, true);
    try_admit(board, ticket, OVEN_LONGEST_WAIT, 0, number);
    try_admit(board, ticket - 1, 1, 0, OVEN_REFUSED_TICKET);
    try_admit(board, ticket, OVEN_LONGEST_WAIT + 1, 0, OVEN_REFUSED_WAIT);
    try_admit(board, ticket, 1, 1u << depth, OVEN_REFUSED_GRADE);
    try_close(board, OVEN_PLACES - 1, OVEN_REFUSED_LIST_SHORT);
    try_close(board, OVEN_PLACES, OVEN_NOT_REFUSED);
    try_promise(board, OVEN_NOT_REFUSED);
    /* the first rack was admitted in an earlier slot where there are more than a slot takes, the last one in this */
    try_withdraw(board, 1, held > OVEN_MOST_IN_SLOT ? OVEN_NOT_REFUSED : OVEN_REFUSED_NOT_WAITING);
    try_withdraw(board, held, OVEN_REFUSED_NOT_WAITING);
    try_withdraw(board, ticket, OVEN_REFUSED_NOT_WAITING);
}

static void try_depth(uint32_t depth) {
    try_open(depth, OVEN_NOT_REFUSED);
    for (uint32_t held = 0; held <= OVEN_PLACES; held += 8) {
        try_board(depth, held, false);
        try_board(depth, held, true);
    }
}

static void try_unsound(void) {
    oven_board board = board_with(3, OVEN_PLACES, false);
    board.highest = OVEN_PLACES - 1;
    try_sound(board, false);
    try_admit(board, OVEN_PLACES + 1, 1, 0, OVEN_REFUSED_UNSOUND);
    try_close(board, OVEN_PLACES, OVEN_REFUSED_UNSOUND);
    try_promise(board, OVEN_REFUSED_UNSOUND);
    try_withdraw(board, 1, OVEN_REFUSED_UNSOUND);
}

static void try_ended(void) {
    oven_board board = oven_open(3).board;
    board.slot.number = OVEN_LAST_SLOT;
    try_close(board, OVEN_PLACES, OVEN_NOT_REFUSED);
    board = answer.closed.board;
    try_admit(board, 1, 1, 0, OVEN_REFUSED_BOOK_ENDED);
    try_close(board, OVEN_PLACES, OVEN_REFUSED_BOOK_ENDED);
    try_promise(board, OVEN_REFUSED_BOOK_ENDED);
    try_withdraw(board, 1, OVEN_REFUSED_BOOK_ENDED);
}

static void try_tally(void) {
    try_count(OVEN_KIND_WITHDRAWN, OVEN_GRADES - 1, 0, OVEN_NOT_REFUSED);
    try_count(OVEN_KINDS, 0, 0, OVEN_REFUSED_NO_SUCH_COUNT);
    try_count(OVEN_KIND_BAKED, OVEN_GRADES, 0, OVEN_REFUSED_NO_SUCH_COUNT);
    try_count(OVEN_KIND_ADMITTED, 0, 8000000, OVEN_REFUSED_COUNT_FULL);
    measure(ZERO);
}

/* Pages with so many closings, more than a page has too; every figure in its limits, and past them. */
static void try_pages(void) {
    oven_figures most = {{OVEN_LAST_SLOT}, UINT32_MAX, OVEN_GRADES - 1, 255}, past = {{UINT32_MAX}, UINT32_MAX, UINT32_MAX, UINT32_MAX};
    try_page_new();
    oven_page page = answer.page;
    for (page.count = 0; page.count <= OVEN_PAGE_SLOTS + 1; page.count++) {
        try_hand_over(page, most, OVEN_NOT_REFUSED);
        try_hand_over(page, past, OVEN_REFUSED_OFF_SHEET);
        try_page_full(page, page.count >= OVEN_PAGE_SLOTS);
        try_print(page, OVEN_PAGE_LENGTH - 1, 0);
        try_print(page, OVEN_PAGE_LENGTH, OVEN_PAGE_LENGTH);
        if (page.count < OVEN_PAGE_SLOTS) page.closings[page.count] = page.count % 2 ? past : most;
    }
}

/* Lists of so many racks, more than a list has too: of any window, and of one that makes every holder move; a window past the slots. */
static void try_lists(void) {
    oven_racks racks = {0};
    for (uint32_t n = 0; n < OVEN_HINDSIGHT_RACKS; n++) racks.windows[n] = (oven_window){{1}, {OVEN_HINDSIGHT_SLOTS - n}};
    for (racks.count = 0; racks.count <= OVEN_HINDSIGHT_RACKS; racks.count++) try_best_day(racks, OVEN_NOT_REFUSED);
    try_best_day(racks, OVEN_REFUSED_TOO_MANY);
    for (uint32_t n = 0; n < OVEN_HINDSIGHT_RACKS; n++) racks.windows[n] = (oven_window){{1}, {OVEN_HINDSIGHT_SLOTS}};
    racks.count = OVEN_HINDSIGHT_RACKS;
    try_best_day(racks, OVEN_NOT_REFUSED);
    racks.windows[0].last.number = OVEN_HINDSIGHT_SLOTS + 1;
    try_best_day(racks, OVEN_REFUSED_WINDOW);
}

int main(void) {
    try_first();
    for (uint32_t depth = 0; depth <= 3; depth++) try_depth(depth);
    try_open(4, OVEN_REFUSED_DEPTH);
    try_unsound();
    try_ended();
    try_tally();
    try_pages();
    try_lists();
    for (int call = 0; call < CALLS; call++) {
        size_t most = calls[call].most, figure = calls[call].figure, loader = calls[call].loader;
        printf("%-19s takes %5zu bytes of stack at the most, the header says %5zu, the loader's %zu in it\n", calls[call].name, most, figure, loader);
        expect(figure - loader <= 2 * most, call, "the header says more than twice what is taken");
    }
    printf("%u passed, %u failed\n", passed, failed);
    return failed > 0;
}
