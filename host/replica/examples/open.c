#include <stdio.h>
#include "hydrangea.h"

static hydrangea_counters counters;
static uint8_t memory[HYDRANGEA_MEMORY];
static hydrangea_block store[HYDRANGEA_STORE];
static uint8_t output[HYDRANGEA_OUTPUT];

int main(void) {
    const uint8_t leaders[] = {0, 1, 2, 3, 4, 5};      /* each replica in its turn */
    hydrangea_reply opened = hydrangea_open(&counters, memory, sizeof memory, store, HYDRANGEA_STORE, 1, 1, 0, 6, 1, leaders, sizeof leaders);
    uint8_t vote[48] = {48, 0, 0, 0, 1, 0, 2, 0, 1};   /* length 48, kind 1, sender 2, view 1 */
    vote[16] = 0xAA;                                   /* its name */
    hydrangea_reply taken = hydrangea_record(&counters, memory, sizeof memory, store, HYDRANGEA_STORE, output, sizeof output, vote, sizeof vote);
    hydrangea_reply again = hydrangea_record(&counters, memory, sizeof memory, store, HYDRANGEA_STORE, output, sizeof output, vote, sizeof vote);
    printf("%llu %llu %llu\n", (unsigned long long)opened.refusal, (unsigned long long)taken.refusal, (unsigned long long)again.refusal);
    return 0;
}
