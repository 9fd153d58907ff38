/* The header's structs, limits and numbers, a line for each, as src/main.rs prints those of the Rust crate. */
#include "oven.h"

#include <stdio.h>

#define STRUCT(type) printf(#type ": %zu bytes\n", sizeof(type))
#define FIELD(type, field) printf(#type ".%s: at %zu, %zu bytes\n", #field, offsetof(type, field), sizeof((type *)0)->field)
#define NUMBER(name) printf(#name ": %d\n", name)

static void places(void) {
    STRUCT(oven_wait);
    FIELD(oven_wait, slots);
    STRUCT(oven_slot);
    FIELD(oven_slot, number);
    STRUCT(oven_place);
    FIELD(oven_place, ticket);
    FIELD(oven_place, admitted);
    FIELD(oven_place, last);
    FIELD(oven_place, grade);
    STRUCT(oven_board);
    FIELD(oven_board, depth);
    FIELD(oven_board, slot);
    FIELD(oven_board, highest);
    FIELD(oven_board, count);
    FIELD(oven_board, places);
    STRUCT(oven_entry);
    FIELD(oven_entry, ticket);
    FIELD(oven_entry, grade);
    FIELD(oven_entry, admitted);
    STRUCT(oven_tally);
    FIELD(oven_tally, counts);
    STRUCT(oven_figures);
    FIELD(oven_figures, slot);
    FIELD(oven_figures, ticket);
    FIELD(oven_figures, grade);
    FIELD(oven_figures, given_up);
    STRUCT(oven_page);
    FIELD(oven_page, count);
    FIELD(oven_page, closings);
    STRUCT(oven_window);
    FIELD(oven_window, first);
    FIELD(oven_window, last);
    STRUCT(oven_racks);
    FIELD(oven_racks, count);
    FIELD(oven_racks, windows);
}

static void answers(void) {
    STRUCT(oven_opened);
    FIELD(oven_opened, refusal);
    FIELD(oven_opened, board);
    STRUCT(oven_admitted);
    FIELD(oven_admitted, refusal);
    FIELD(oven_admitted, last);
    FIELD(oven_admitted, board);
    STRUCT(oven_closed);
    FIELD(oven_closed, refusal);
    FIELD(oven_closed, ticket);
    FIELD(oven_closed, grade);
    FIELD(oven_closed, given_up);
    FIELD(oven_closed, shortfall);
    FIELD(oven_closed, board);
    STRUCT(oven_promised);
    FIELD(oven_promised, refusal);
    FIELD(oven_promised, wait);
    STRUCT(oven_withdrawn);
    FIELD(oven_withdrawn, refusal);
    FIELD(oven_withdrawn, grade);
    FIELD(oven_withdrawn, board);
    STRUCT(oven_counted);
    FIELD(oven_counted, refusal);
    FIELD(oven_counted, tally);
    STRUCT(oven_handed_over);
    FIELD(oven_handed_over, refusal);
    FIELD(oven_handed_over, page);
    STRUCT(oven_planned);
    FIELD(oven_planned, refusal);
    FIELD(oven_planned, slots);
}

static void numbers(void) {
    NUMBER(OVEN_LONGEST_WAIT);
    NUMBER(OVEN_MOST_IN_SLOT);
    NUMBER(OVEN_PLACES);
    NUMBER(OVEN_LAST_SLOT);
    NUMBER(OVEN_KINDS);
    NUMBER(OVEN_GRADES);
    NUMBER(OVEN_PAGE_SLOTS);
    NUMBER(OVEN_PAGE_LENGTH);
    NUMBER(OVEN_HINDSIGHT_RACKS);
    NUMBER(OVEN_HINDSIGHT_SLOTS);
    NUMBER(OVEN_REFUSED_DEPTH);
    NUMBER(OVEN_REFUSED_UNSOUND);
    NUMBER(OVEN_REFUSED_BOOK_ENDED);
    NUMBER(OVEN_REFUSED_TICKET);
    NUMBER(OVEN_REFUSED_WAIT);
    NUMBER(OVEN_REFUSED_GRADE);
    NUMBER(OVEN_REFUSED_SLOT_FULL);
    NUMBER(OVEN_REFUSED_LIST_SHORT);
    NUMBER(OVEN_REFUSED_NO_SUCH_COUNT);
    NUMBER(OVEN_REFUSED_COUNT_FULL);
    NUMBER(OVEN_REFUSED_OFF_SHEET);
    NUMBER(OVEN_REFUSED_NOT_WAITING);
    NUMBER(OVEN_REFUSED_TOO_MANY);
    NUMBER(OVEN_REFUSED_WINDOW);
    NUMBER(OVEN_KIND_ADMITTED);
    NUMBER(OVEN_KIND_BAKED);
    NUMBER(OVEN_KIND_GIVEN_UP);
    NUMBER(OVEN_KIND_WITHDRAWN);
}

int main(void) {
    places();
    answers();
    numbers();
    return 0;
}
