/*
 * An ADS7953: the administrator plans a channel list and sends it, the part goes through the listed channels, and each frame's word
 * and reply show the lag between them. From the repository's root:
 *
 *     (cd crates/capi_ads7953 && rt lib)
 *     gcc -std=c11 -Wall -Wextra -Iinclude examples/c/ads7953.c crates/capi_ads7953/out/libcapi_ads7953.a -o ads7953
 *     ./ads7953 | diff - examples/c/ads7953.txt
 */
#include "rimevelvet.h"

#include <stdio.h>

/* Sends a word in frame `number`, in which the code 100h + number is sampled. */
static rimevelvet_ads7953 print_frame(rimevelvet_ads7953 state, unsigned number, uint16_t word)
{
    rimevelvet_ads7953_framed framed = rimevelvet_ads7953_frame(state, word, (uint16_t)(0x100 + number));
    printf("frame %u: word %04X asks for channel %u, reply %04X\n", number, (unsigned)word, (unsigned)framed.next.ordered,
           (unsigned)framed.reply);
    return framed.next;
}

/* Plans a list into a buffer of which `room` bytes are lent, and which stays as it was where the plan is refused. */
static void print_plan(const char *name, rimevelvet_ads7953 state, uint32_t party, uint16_t list, uint8_t *tx, size_t room)
{
    rimevelvet_ads7953_planned planned = rimevelvet_ads7953_plan_list(state, party, list, tx, room, 0);
    printf("%s: refused %u, plan", name, (unsigned)planned.refusal);
    for (size_t i = 0; i < planned.length; i++)
        printf(" %02X", (unsigned)tx[i]);
    printf("\n");
}

int main(void)
{
    rimevelvet_ads7953 state = rimevelvet_ads7953_power_up();
    printf("fresh: mode %u, channel %u, list %04X, last channel %u\n", (unsigned)state.mode, (unsigned)state.channel,
           (unsigned)state.list, (unsigned)state.last);

    uint8_t tx[RIMEVELVET_LIST_PLAN] = {0};
    print_plan("channels 3 and 9", state, 0, 0x0208, tx, sizeof tx);
    print_plan("the same from party 1", state, 1, 0x0208, tx, sizeof tx);
    print_plan("from party 9", state, 9, 0x0208, tx, sizeof tx);
    print_plan("an empty list", state, 0, 0x0000, tx, sizeof tx);
    print_plan("room for 3", state, 0, 0x0208, tx, 3);

    /* The plan's four bytes are two words. */
    unsigned number = 0;
    for (size_t i = 0; i < sizeof tx; i += 2) {
        state = print_frame(state, number++, (uint16_t)(tx[i] << 8 | tx[i + 1]));
        if (state.programming)
            print_plan("half through programming", state, 0, 0x0208, tx, sizeof tx);
    }
    printf("list %04X\n", (unsigned)state.list);

    /* Auto-1, and then its round goes on. What a word asks for is replied two frames later. */
    state = print_frame(state, number++, 0x2800);
    while (number < 8)
        state = print_frame(state, number++, 0x0000);

    /* Channel 5 in manual mode, at 0 to 2 x Vref; the range stays where DI11 is 0. */
    state = print_frame(state, number++, 0x1AC0);
    state = print_frame(state, number++, 0x1000);
    state = print_frame(state, number++, 0x0000);
    state = print_frame(state, number++, 0x0000);
    printf("range 2: %u\n", (unsigned)state.range2);

    printf("a code of 4,096: refused %u\n", (unsigned)rimevelvet_ads7953_frame(state, 0x0000, 4096).refusal);
    state.ordered = 16;
    printf("channel 16 asked for: refused %u\n", (unsigned)rimevelvet_ads7953_frame(state, 0x0000, 0).refusal);
    return 0;
}
