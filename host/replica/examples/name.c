/*
 * Names the blocks of a chain: the first one stands on genesis, each other one on the one before.
 *
 *     name CONTENTS..
 *
 * takes the contents of each block as a word, and prints its height and its name. It stops at contents that are
 * refused. Without arguments it makes a chain: the third block has as many bytes as contents may have, and the fourth
 * would have one more.
 */
#include <stdio.h>
#include <string.h>
#include "hydrangea.h"

static hydrangea_block_name tip; /* all zero: genesis */
static uint64_t height;

static void print_line(const hydrangea_block_name *name) {
    printf("%llu ", (unsigned long long)height);
    for (size_t at = 0; at < sizeof name->bytes; at++) printf("%02x", name->bytes[at]);
    printf("\n");
}

/* Names the next block and goes on to it; 0 or the refusal. */
static uint64_t add(const uint8_t *contents, size_t length) {
    hydrangea_named named = hydrangea_name(tip, height + 1, contents, length);
    if (named.refusal != 0) {
        printf("%llu refused by %llu: %zu bytes, and at most %d are taken\n", (unsigned long long)(height + 1),
               (unsigned long long)named.refusal, length, HYDRANGEA_CONTENTS);
        return named.refusal;
    }
    tip = named.name;
    height++;
    print_line(&tip);
    return 0;
}

/* The last of the four blocks is refused. */
static int make(void) {
    static uint8_t longer[HYDRANGEA_CONTENTS + 1];
    static const uint8_t first[] = {'t', 'i', 't', 'l', 'e', ' ', '7'};
    memset(longer, 'x', sizeof longer);
    add(first, sizeof first);
    add(longer, 0);
    add(longer, HYDRANGEA_CONTENTS);
    return add(longer, sizeof longer) == 16 ? 0 : 1;
}

int main(int count, char **words) {
    if (count == 1) return make();
    for (int at = 1; at < count; at++)
        if (add((const uint8_t *)words[at], strlen(words[at])) != 0) return 1;
    return 0;
}
