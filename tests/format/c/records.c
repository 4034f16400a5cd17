/* Writes what the builders and readers of keydesk.h make of the examples of docs/FORMAT.md, one to a
 * line: the example's words, a colon, its bytes in hex. */
#include "keydesk.h"
#include <stdio.h>

static void show(const char *words, const uint8_t *bytes, size_t length) {
    printf("%s:", words);
    for (size_t i = 0; i < length; i++) printf(" %02x", bytes[i]);
    printf("\n");
}

int main(void) {
    uint8_t out[KEYDESK_REQUEST];
    show("1 begins", out, keydesk_begin(out, 1));
    show("1 commits", out, keydesk_commit(out, 1));
    show("16 rolls back", out, keydesk_rollback(out, 16));
    show("2 reads 50..150", out, keydesk_read(out, 2, 50, 150));
    show("1 inserts 100, record 7", out, keydesk_insert(out, 1, 100, 7));
    show("1 deletes 100", out, keydesk_delete(out, 1, 100));

    const uint8_t answers[2 * KEYDESK_ANSWER] = {
        20, 0, 7, 0, 1, 0, 0, 0, 0, 0, 0, 0, 0, 0, 0, 0, 0, 0, 0, 0,
        20, 0, 7, 0, 2, 1, 16, 0, 8, 7, 6, 5, 4, 3, 2, 1, 9, 10, 11, 255,
    };
    uint64_t returned = 2 * KEYDESK_ANSWER;
    for (uint32_t i = 0; i < keydesk_answer_count(returned); i++) {
        struct keydesk_answer answer = keydesk_answer_at(answers, i);
        printf("answer %u %u %llu %lu\n", (unsigned)answer.transaction, (unsigned)answer.number,
               (unsigned long long)answer.key, (unsigned long)answer.record);
    }
    uint64_t refused = (uint64_t)KEYDESK_NOT_WHOLE << 32;
    printf("refused %lu %lu\n", (unsigned long)keydesk_number(refused),
           (unsigned long)keydesk_answer_bytes(refused));
    printf("served %lu %lu\n", (unsigned long)keydesk_number(returned),
           (unsigned long)keydesk_answer_bytes(returned));
    uint64_t key = keydesk_key(7, 25);
    printf("key %llu of %lu and %lu\n", (unsigned long long)key, (unsigned long)keydesk_pupil(key),
           (unsigned long)keydesk_delivery(key));
    return 0;
}
