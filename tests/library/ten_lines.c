#include "oven.h"
#include <stdio.h>

int main(void) {
    oven_wait wait = {1};
    oven_entry list[OVEN_PLACES];
    uint8_t text[OVEN_PAGE_LENGTH];
    oven_admitted admitted = oven_admit(oven_open(1).board, 7, wait, 0);
    oven_closed closed = oven_close_into(admitted.board, list, OVEN_PLACES);
    oven_figures figures = {admitted.board.slot, closed.ticket, closed.grade, closed.given_up};
    oven_page_print(oven_page_hand_over(oven_page_new(), figures).page, text, OVEN_PAGE_LENGTH);
    printf("last slot %u, promised %u, baked %u, given up %u, shortfall %u\n", admitted.last.number, oven_promise(admitted.board).wait.slots,
           closed.ticket, closed.given_up, closed.shortfall);
    printf("%.50s", (const char *)text);
    return 0;
}
