/* Two halves that registered one name for different owners heal their split. Prints the owner that each half has then. */
#include "heal.h"

#include <stdio.h>
#include <stdlib.h>

/* Ends the program if a call is refused. */
static void must(uint32_t refusal)
{
    uint8_t words[128];
    size_t len;

    if (refusal == 0)
        return;
    len = heal_refusal_words(refusal, words, sizeof words);
    fprintf(stderr, "refused %u: %.*s\n", refusal, len > sizeof words ? 0 : (int)len, (char *)words);
    exit(1);
}

/* Delivers a message to a half, as a transport would. */
static void deliver(heal_bytes *message, heal_side *half, uint32_t (*hear)(heal_side *, const uint8_t *, size_t))
{
    heal_span sent = HEAL_NO_BYTES;

    must(heal_bytes_lend(message, &sent));
    must(hear(half, sent.data, sent.len));
    heal_bytes_free(message);
}

int main(void)
{
    heal_side half[2] = {{0}, {0}};
    heal_bytes message[2] = {{0}, {0}};
    heal_outcome outcome = {0};
    heal_registration found, owned[2] = {{.owner = {1, 10}}, {.owner = {2, 20}}};

    for (int i = 0; i < 2; i++) {
        must(heal_side_new(i == 0 ? HEAL_A : HEAL_B, &half[i]));
        must(heal_side_register(&half[i], (const uint8_t *)"db", 2, &owned[i]));
        must(heal_side_begin(&half[i], 1, 7, 0, &message[i]));
    }
    for (int i = 0; i < 2; i++)
        deliver(&message[1 - i], &half[i], heal_side_hear);
    for (int i = 0; i < 2; i++) {
        must(heal_side_settle(&half[i]));
        must(heal_side_close_list(&half[i], &message[i]));
    }
    for (int i = 0; i < 2; i++)
        deliver(&message[1 - i], &half[i], heal_side_hear_list);
    for (int i = 0; i < 2; i++) {
        must(heal_side_finish(&half[i], &outcome));
        must(heal_side_whereis(&half[i], (const uint8_t *)"db", 2, &found));
        printf("db %u.%u\n", found.owner.node, found.owner.serial);
        heal_side_free(&half[i]);
    }
    heal_outcome_free(&outcome);
    return 0;
}
