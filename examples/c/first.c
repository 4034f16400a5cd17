/* The first case of document 01: 1 begins and inserts 100 with record 7; 2 begins and reads
 * 50..150, which waits; 1 commits, and the commit answers both. Prints the commit's answer records
 * in hex, one to a line. Build from the repository's root:
 *
 *   tools/make desk
 *   cc -Iinclude examples/c/first.c target/staticlib/libdesk.a -o first
 */
#include "keydesk.h"
#include <stdio.h>

static uint8_t pages[KEYDESK_PAGES];
static uint8_t desk[KEYDESK_DESK];
static uint8_t answers[KEYDESK_ANSWERS];
static uint8_t request[KEYDESK_REQUEST];

/* Asks the request that was built, and gives the bytes of its answers: none where it is refused. */
static uint32_t ask(size_t length) {
    uint64_t returned = keydesk_serve(pages, sizeof pages, desk, sizeof desk,
                                      answers, sizeof answers, request, length);
    return keydesk_answer_bytes(returned);
}

int main(void) {
    if (keydesk_fresh(pages, sizeof pages, desk, sizeof desk) != 0) return 1;
    ask(keydesk_begin(request, 1));
    ask(keydesk_insert(request, 1, 100, 7));
    ask(keydesk_begin(request, 2));
    ask(keydesk_read(request, 2, 50, 150));
    uint32_t bytes = ask(keydesk_commit(request, 1));
    for (uint32_t at = 0; at < bytes; at++)
        printf("%02x%c", answers[at], (at + 1) % KEYDESK_ANSWER == 0 ? '\n' : ' ');
    return 0;
}
