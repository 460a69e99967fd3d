/*
 * Names that the library makes from contents. Replica 0 of six proposes contents: the name is made on one held block after
 * another, until the library takes it. Replica 1 is handed the proposal with other contents, with contents that are too
 * long, with its own, and again. A line for each call: what it is, and its answer.
 */
#include <stdio.h>
#include <string.h>
#include "hydrangea.h"

enum { PROPOSAL = 7, BLOCK = 8 };

typedef struct {
    hydrangea_counters counters;
    uint8_t memory[HYDRANGEA_MEMORY];
    hydrangea_block store[HYDRANGEA_STORE];
    uint8_t output[HYDRANGEA_OUTPUT];
} replica;

static replica leader, other;
static const uint8_t leaders[] = {0, 1, 2, 3, 4, 5};

/* Prints a call's answer; its refusal. */
static uint64_t say(const char *what, uint64_t refusal) {
    printf("%s: %llu\n", what, (unsigned long long)refusal);
    return refusal;
}

static uint64_t open_replica(replica *one, uint64_t own) {
    return hydrangea_open(&one->counters, one->memory, HYDRANGEA_MEMORY, one->store, HYDRANGEA_STORE, 1, 1, 0, 6, own,
                          leaders, sizeof leaders).refusal;
}

static hydrangea_reply take(replica *one, const uint8_t *record, size_t length, const void *contents, size_t size) {
    return hydrangea_record_with(&one->counters, one->memory, HYDRANGEA_MEMORY, one->store, HYDRANGEA_STORE, one->output,
                                 HYDRANGEA_OUTPUT, record, length, contents, size);
}

/* A block of these contents on another one, as a record of kind 8. */
static void write_block(uint8_t record[80], const hydrangea_block *parent, const void *contents, size_t size) {
    uint64_t height = parent->height + 1;
    hydrangea_block_name name = hydrangea_name(parent->name, height, contents, size).name;
    memset(record, 0, 80);
    record[0] = 80;
    record[4] = BLOCK;
    memcpy(record + 8, name.bytes, sizeof name.bytes);
    memcpy(record + 40, parent->name.bytes, sizeof parent->name.bytes);
    for (int at = 0; at < 8; at++) record[72 + at] = (uint8_t)(height >> 8 * at);
}

/* Proposes contents on this block; 17 where it isn't the safe one. */
static hydrangea_reply propose_on(replica *one, const hydrangea_block *parent, const void *contents, size_t size) {
    hydrangea_named named = hydrangea_name(parent->name, parent->height + 1, contents, size);
    return hydrangea_propose_with(&one->counters, one->memory, HYDRANGEA_MEMORY, one->store, HYDRANGEA_STORE, one->output,
                                  HYDRANGEA_OUTPUT, named.name, contents, size);
}

/*
 * Proposes contents on the safe block, whichever of the held ones that is: the later ones first, the tip last. A name that
 * was made on another block is refused, by 11 if there is such a block, and changes nothing.
 */
static hydrangea_reply propose(replica *one, const void *contents, size_t size) {
    size_t held = one->memory[8] | (size_t)one->memory[9] << 8;
    while (held-- > 0) {
        hydrangea_reply reply = propose_on(one, &one->store[held], contents, size);
        if (reply.refusal != 17 && reply.refusal != 11) return reply;
    }
    return propose_on(one, &one->counters.tip, contents, size);
}

int main(void) {
    static const char contents[] = "title 7 issued", stray[] = "title 8 issued";
    static uint8_t longer[HYDRANGEA_CONTENTS + 1], record[80];
    if (open_replica(&leader, 0) != 0 || open_replica(&other, 1) != 0) return 1;

    /* The leader holds two blocks, one on the other; the safe block is genesis. */
    write_block(record, &leader.counters.tip, stray, strlen(stray));
    say("a block", take(&leader, record, sizeof record, stray, strlen(stray)).refusal);
    write_block(record, &leader.store[0], stray, strlen(stray));
    say("a block on it", take(&leader, record, sizeof record, stray, strlen(stray)).refusal);
    say("contents too long", propose(&leader, longer, sizeof longer).refusal);
    if (say("proposed", propose(&leader, contents, strlen(contents)).refusal) != 0) return 1;

    /* The proposal stands first in the output; its length is in its first bytes. */
    const uint8_t *proposal = leader.output;
    size_t length = proposal[0] | (size_t)proposal[1] << 8;
    if (proposal[4] != PROPOSAL) return 1;
    say("with other contents", take(&other, proposal, length, stray, strlen(stray)).refusal);
    say("with none", take(&other, proposal, length, contents, 0).refusal);
    say("with contents too long", take(&other, proposal, length, longer, sizeof longer).refusal);
    say("with its own", take(&other, proposal, length, contents, strlen(contents)).refusal);
    say("again", take(&other, proposal, length, contents, strlen(contents)).refusal);
    say("again with other contents", take(&other, proposal, length, stray, strlen(stray)).refusal);
    return 0;
}
