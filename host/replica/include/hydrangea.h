/*
 * One replica of the voting core as a step machine over bytes: the calls of the proved library. Two more calls,
 * hydrangea_decisive and hydrangea_name, touch no replica.
 *
 * The host lends every region for the time of a call; the library keeps no pointer, allocates nothing and has no
 * state of its own. Regions must not overlap. A slice crosses as a pointer and a length: in bytes, for the store in
 * blocks. What is shorter than the lengths below is answered with refusal 2; of longer regions the rest is left
 * alone. No pointer may be null, and counters and store are aligned for a uint64_t. docs/INTERFACE.md has the
 * records and the layouts.
 *
 * Every call answers with a refusal, 0 for acceptance, and those on a replica with the number of bytes written. A
 * refused call changes no byte. An accepted one on a replica writes whole records to the front of the output and leaves
 * the bytes after them.
 *
 * What one chain asks of the host:
 * - each number is opened once, all honest replicas of a cluster with the same settings and the same leader list;
 * - a record is handed in only after its signatures were checked, those of its inner timeouts and of each
 *   certificate's signers too;
 * - a name has one parent and one height: every proposal and block comes in with its contents (hydrangea_record_with) and
 *   own ones are proposed with theirs (hydrangea_propose_with), so that the library checks each name; or the host sees to it;
 * - counters, memory and store are saved before any output byte of the call is sent, and a replica resumes only from
 *   what its last finished call left;
 * - of the output, kind 6 goes to the leader of the next view by the list (for one of view w, of view w + 1), kind 9
 *   (a release) to the host itself, all else to every other replica.
 *
 * A proposal travels with its block's contents. The host keeps those of held blocks, until they are released or dropped:
 * whoever lacks a block asks for it, and takes it (kind 8) with its contents.
 *
 * On the deepest inputs known a call takes under 384 KiB of stack.
 */
#ifndef HYDRANGEA_H
#define HYDRANGEA_H

#ifndef __cplusplus
#include <stdbool.h>
#endif
#include <stddef.h>
#include <stdint.h>

#ifdef __cplusplus
extern "C" {
#endif

/* The least lengths: memory in bytes, store in blocks, output in bytes. */
#define HYDRANGEA_MEMORY 34568
#define HYDRANGEA_STORE 128
#define HYDRANGEA_OUTPUT 32768

/* The most entries of a leader list. */
#define HYDRANGEA_LEADERS 64

/* The most bytes of a block's contents. */
#define HYDRANGEA_CONTENTS 4096

/* A block's name. All zero is genesis. */
typedef struct hydrangea_block_name {
    uint8_t bytes[32];
} hydrangea_block_name;

/* A block without its contents. */
typedef struct hydrangea_block {
    hydrangea_block_name name;
    hydrangea_block_name parent;
    uint64_t height;
} hydrangea_block;

/* A vote. View 0 is none. */
typedef struct hydrangea_vote {
    uint64_t view;
    hydrangea_block_name name;
} hydrangea_vote;

/* A certificate. Bit i of signers stands for replica i. */
typedef struct hydrangea_signed {
    uint64_t view;
    hydrangea_block_name name;
    uint64_t signers;
} hydrangea_signed;

/* The replica's counters, which every accepted call updates. */
typedef struct hydrangea_counters {
    uint64_t view;
    uint64_t timed;        /* the highest view that a timeout was sent for */
    hydrangea_vote high;   /* the last vote sent */
    hydrangea_signed lock; /* the highest block certificate adopted */
    hydrangea_signed weak; /* the highest weak certificate adopted; view 0 is none */
    hydrangea_block tip;   /* the last block released */
} hydrangea_counters;

/* 0 or a refusal, 1 to 17, and how many bytes of output were written. */
typedef struct hydrangea_reply {
    uint64_t refusal;
    size_t written;
} hydrangea_reply;

/* 0 or a refusal, whether there is a decisive timeout, and its sender; without one the sender is 0. */
typedef struct hydrangea_decisive_reply {
    uint64_t refusal;
    bool found;
    uint64_t sender;
} hydrangea_decisive_reply;

/* 0 or refusal 16, and a block's name; refused, it is all zero. */
typedef struct hydrangea_named {
    uint64_t refusal;
    hydrangea_block_name name;
} hydrangea_named;

/*
 * Opens the replica `own` of a cluster of n = 3f + 2c + k + 1 in what is lent, whatever stood there. Any f, c and k are
 * taken as long as n is at most 32; all of them 0 is a cluster of one. The leader list has 1 to 64 replica numbers, one
 * byte each; the leader of view v is entry (v - 1) mod its length. A replica may stand in it several times or not at all.
 * The list is kept in the memory, where no other call changes it. Refusals 1 (n isn't that sum or over 32, the own number
 * is n or above, or the list is empty, longer or has an entry of n or above) and 2 (a region is too short). The store's
 * entries are left as they are; nothing is written to send.
 */
hydrangea_reply hydrangea_open(hydrangea_counters *counters, uint8_t *memory, size_t memory_length,
                               const hydrangea_block *store, size_t store_length, uint64_t f, uint64_t c, uint64_t k,
                               uint64_t n, uint64_t own, const uint8_t *leaders, size_t leaders_length);

/* Takes a record of any bytes, with its signatures checked. Refusals 2 to 14. */
hydrangea_reply hydrangea_record(hydrangea_counters *counters, uint8_t *memory, size_t memory_length,
                                 hydrangea_block *store, size_t store_length, uint8_t *output, size_t output_length,
                                 const uint8_t *record, size_t record_length);

/*
 * The same with contents, for a proposal (kind 7) or a block (kind 8) those of its block: its name must be what hydrangea_name
 * makes of its parent, its height and them. Contents of 0 bytes are contents. Refusals as above, and 16 (the contents are
 * longer than HYDRANGEA_CONTENTS; right after 2, beside any record) and 17 (the name is another one; right before 10, so for
 * a block that is held too). Beside a record of another kind only the length is judged.
 */
hydrangea_reply hydrangea_record_with(hydrangea_counters *counters, uint8_t *memory, size_t memory_length,
                                      hydrangea_block *store, size_t store_length, uint8_t *output,
                                      size_t output_length, const uint8_t *record, size_t record_length,
                                      const uint8_t *contents, size_t contents_length);

/* The clock of a view ran out: a timeout is sent. Refusals 2, 7, 8 (not the current view) and 10 (sent already). */
hydrangea_reply hydrangea_timer(hydrangea_counters *counters, uint8_t *memory, size_t memory_length,
                                hydrangea_block *store, size_t store_length, uint8_t *output, size_t output_length,
                                uint64_t view);

/*
 * Proposes a block of this name in the current view, on the safe block of the certificate by which the view was
 * entered. Refusals 2, 15 (not this replica's turn: by the list another leads, it timed out or voted in the view, or
 * the view is 2^62), 5, 11, 12, 13 and 14.
 */
hydrangea_reply hydrangea_propose(hydrangea_counters *counters, uint8_t *memory, size_t memory_length,
                                  hydrangea_block *store, size_t store_length, uint8_t *output, size_t output_length,
                                  hydrangea_block_name name);

/*
 * The same with the block's contents: the name must be what hydrangea_name makes of the safe block's name, its height plus 1
 * and them. Refusals as above, and 16 (the contents are longer than HYDRANGEA_CONTENTS; right after 2) and 17 (the name is
 * another one; right before 14). The safe block is the tip or one of the store's held blocks (memory has their number in
 * bytes 8 and 9): a host that doesn't know which makes the name on one after another, until the answer is neither 17 nor
 * 11. Only the right name is taken, and a refused call changes nothing. examples/contents.c does so.
 */
hydrangea_reply hydrangea_propose_with(hydrangea_counters *counters, uint8_t *memory, size_t memory_length,
                                       hydrangea_block *store, size_t store_length, uint8_t *output,
                                       size_t output_length, hydrangea_block_name name, const uint8_t *contents,
                                       size_t contents_length);

/*
 * Whose timeout decided it: of a good timeout certificate (kind 6) the lowest sender whose timeout, taken out, leaves at
 * least n - f - c timeouts but another safe block by name. Weak certificates are built anew of the timeouts left. There is
 * none where no sender has that property, as with exactly n - f - c timeouts. The record has any bytes, and nothing is
 * written. Refusals 1 (n isn't 3f + 2c + k + 1 or is over 32), 3, 4 (a kind but 6 too, whatever its own length would be),
 * 5, 6 (the sender is n or above), 7 (the view is 0), 8 (the view is 2^62 or above) and 9 (too few timeouts, or one that
 * isn't good).
 */
hydrangea_decisive_reply hydrangea_decisive(uint64_t f, uint64_t c, uint64_t k, uint64_t n, const uint8_t *record,
                                            size_t record_length);

/*
 * The name of a block: SHA-256 (FIPS 180-4) of its parent's name, its height as eight bytes, the lowest first, and its
 * contents, 0 to HYDRANGEA_CONTENTS bytes. The height is any number, and nothing is written. Refusal 16 (the contents are
 * longer). hydrangea_record_with and hydrangea_propose_with check that a block has this name.
 */
hydrangea_named hydrangea_name(hydrangea_block_name parent, uint64_t height, const uint8_t *contents,
                               size_t contents_length);

/*
 * The library was built for these sizes: no struct has a gap, but for the seven bytes behind `found`, which mean nothing.
 * In C99 a wrong one is an array of negative length.
 */
#if defined(__cplusplus) && __cplusplus >= 201103L
#define HYDRANGEA_SIZE(type, size) static_assert(sizeof(type) == (size), #type " has another size")
#elif defined(__STDC_VERSION__) && __STDC_VERSION__ >= 201112L
#define HYDRANGEA_SIZE(type, size) _Static_assert(sizeof(type) == (size), #type " has another size")
#else
#define HYDRANGEA_SIZE(type, size) typedef char type##_has_its_size[sizeof(type) == (size) ? 1 : -1]
#endif

HYDRANGEA_SIZE(hydrangea_block_name, 32);
HYDRANGEA_SIZE(hydrangea_block, 72);
HYDRANGEA_SIZE(hydrangea_vote, 40);
HYDRANGEA_SIZE(hydrangea_signed, 48);
HYDRANGEA_SIZE(hydrangea_counters, 224);
HYDRANGEA_SIZE(hydrangea_reply, 16);
HYDRANGEA_SIZE(hydrangea_decisive_reply, 24);
HYDRANGEA_SIZE(hydrangea_named, 40);

#undef HYDRANGEA_SIZE

#ifdef __cplusplus
}
#endif

#endif
