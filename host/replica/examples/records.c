/*
 * Six replicas in one program. The first one proposes a block, and records are passed among them until each has
 * released it. The library makes its name, and each replica checks it: the block's contents are handed in beside every
 * record, and where there is no block in it they do no harm. Behind every region stand GUARD bytes that no call may
 * touch. With GUARD 0 the regions have exactly their lengths, for a sanitizer; it sees what this program does, and not
 * the library's own code, which isn't instrumented.
 */
#include <stdio.h>
#include <stdlib.h>
#include <string.h>
#include "hydrangea.h"

#ifndef GUARD
#define GUARD 64
#endif

enum { REPLICAS = 6, CERTIFICATE = 6, RELEASE = 9, MARK = 0x5A };

typedef struct {
    hydrangea_counters *counters;
    uint8_t *memory;
    hydrangea_block *store;
    uint8_t *output;
    unsigned released;
} replica;

/* A record on its way. */
typedef struct parcel {
    struct parcel *next;
    unsigned to;
    size_t length;
    uint8_t *bytes;
} parcel;

static replica cluster[REPLICAS];
static parcel *first;
static parcel **last = &first;
static const uint8_t contents[] = "title 7 issued";
static hydrangea_block_name block; /* the name of the block with these contents on genesis */
/* Replica 0 leads every other view. */
static const uint8_t leaders[] = {0, 1, 0, 2, 0, 3, 0, 4, 0, 5};

static void fail(const char *what) {
    fprintf(stderr, "%s\n", what);
    exit(1);
}

static void *get(size_t length) {
    void *bytes = malloc(length);
    if (bytes == NULL) fail("no memory");
    return bytes;
}

/* A region of a call, with the guard behind it. */
static void *region(size_t length) {
    uint8_t *bytes = get(length + GUARD);
    memset(bytes, MARK, length + GUARD);
    return bytes;
}

static void check_guard(const void *region, size_t length) {
    const uint8_t *behind = (const uint8_t *)region + length;
    for (const uint8_t *end = behind + GUARD; behind != end; behind++)
        if (*behind != MARK) fail("a call wrote behind a region");
}

static void check_guards(const replica *one) {
    check_guard(one->counters, sizeof *one->counters);
    check_guard(one->memory, HYDRANGEA_MEMORY);
    check_guard(one->store, HYDRANGEA_STORE * sizeof *one->store);
    check_guard(one->output, HYDRANGEA_OUTPUT);
}

static unsigned long long number(const uint8_t *bytes, size_t width) {
    unsigned long long value = 0;
    while (width-- > 0) value = value << 8 | bytes[width];
    return value;
}

static void open_replica(unsigned own) {
    replica *one = &cluster[own];
    one->counters = region(sizeof *one->counters);
    one->memory = region(HYDRANGEA_MEMORY);
    one->store = region(HYDRANGEA_STORE * sizeof *one->store);
    one->output = region(HYDRANGEA_OUTPUT);
    hydrangea_reply reply = hydrangea_open(one->counters, one->memory, HYDRANGEA_MEMORY, one->store, HYDRANGEA_STORE,
                                           1, 1, 0, REPLICAS, own, leaders, sizeof leaders);
    if (reply.refusal != 0) fail("an opening was refused");
    check_guards(one);
}

static void close_replica(replica *one) {
    free(one->counters);
    free(one->memory);
    free(one->store);
    free(one->output);
}

static void post(unsigned to, const uint8_t *bytes, size_t length) {
    parcel *next = get(sizeof *next);
    next->next = NULL;
    next->to = to;
    next->length = length;
    next->bytes = get(length);
    memcpy(next->bytes, bytes, length);
    *last = next;
    last = &next->next;
}

static parcel *take(void) {
    parcel *next = first;
    first = next->next;
    if (first == NULL) last = &first;
    return next;
}

static void note_release(unsigned own, const uint8_t *record) {
    if (number(record + 48, 8) != 1 || memcmp(record + 16, block.bytes, sizeof block.bytes) != 0)
        fail("another block was released");
    cluster[own].released++;
}

/* A replica's record goes where its kind says. */
static void route(unsigned own, const uint8_t *record, size_t length) {
    unsigned kind = (unsigned)number(record + 4, 2);
    if (kind == RELEASE) {
        note_release(own, record);
    } else if (kind == CERTIFICATE) {
        post(leaders[number(record + 8, 8) % sizeof leaders], record, length); /* of the next view */
    } else {
        for (unsigned to = 0; to < REPLICAS; to++)
            if (to != own) post(to, record, length);
    }
}

/* What an accepted call wrote, record by record. A host that may stop saves its state first. */
static void send_output(unsigned own, size_t written) {
    const uint8_t *output = cluster[own].output;
    for (size_t at = 0, length; at < written; at += length) {
        length = (size_t)number(output + at, 4);
        route(own, output + at, length);
    }
    check_guards(&cluster[own]);
}

static void propose(unsigned own) {
    const hydrangea_block_name genesis = {{0}};
    replica *one = &cluster[own];
    block = hydrangea_name(genesis, 1, contents, sizeof contents).name;
    hydrangea_reply reply =
        hydrangea_propose_with(one->counters, one->memory, HYDRANGEA_MEMORY, one->store, HYDRANGEA_STORE, one->output,
                               HYDRANGEA_OUTPUT, block, contents, sizeof contents);
    if (reply.refusal != 0) fail("the proposal was refused");
    send_output(own, reply.written);
}

/* Hands a record to the replica that it goes to. Some are refused: they come late or twice. */
static void deliver(parcel *next) {
    replica *one = &cluster[next->to];
    hydrangea_reply reply =
        hydrangea_record_with(one->counters, one->memory, HYDRANGEA_MEMORY, one->store, HYDRANGEA_STORE, one->output,
                              HYDRANGEA_OUTPUT, next->bytes, next->length, contents, sizeof contents);
    send_output(next->to, reply.refusal == 0 ? reply.written : 0);
    free(next->bytes);
    free(next);
}

int main(void) {
    for (unsigned own = 0; own < REPLICAS; own++) open_replica(own);
    propose(0);
    while (first != NULL) deliver(take());
    for (unsigned own = 0; own < REPLICAS; own++) {
        const replica *one = &cluster[own];
        printf("%u: released %u, height %llu, view %llu\n", own, one->released,
               (unsigned long long)one->counters->tip.height, (unsigned long long)one->counters->view);
        close_replica(&cluster[own]);
    }
    return 0;
}
