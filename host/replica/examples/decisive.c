/*
 * A tool for service staff: on whose timeout did the choice of a timeout certificate hang?
 *
 *     decisive F C K < CERTIFICATE
 *
 * reads the certificate, a record of kind 6, of a cluster with these settings. Without arguments it makes one in the
 * cluster of six: replicas 1 and 2 give one block as high vote, 3 and 4 another.
 */
#include <stdio.h>
#include <stdlib.h>
#include <string.h>
#include "hydrangea.h"

enum { HEAD = 24, TIMEOUT = 112, LONGEST = HEAD + 32 * TIMEOUT };

static void fail(const char *what) {
    fprintf(stderr, "%s\n", what);
    exit(2);
}

/* What a refusal means for a certificate. */
static const char *meaning(unsigned long long refusal) {
    switch (refusal) {
    case 1: return "no cluster has these settings";
    case 3: return "a length is wrong";
    case 4: return "it is no timeout certificate, or an inner kind is out of place";
    case 5: return "padding, a high vote, a signer set or an inner timeout isn't as it must be";
    case 6: return "its sender is outside of the cluster";
    case 7: return "its view is 0";
    case 8: return "its view is 2^62 or above";
    case 9: return "it has too few timeouts, or one that isn't good";
    default: return "for no reason known here";
    }
}

static void put_header(uint8_t *record, size_t length, uint8_t kind, uint8_t sender, uint8_t view) {
    record[0] = (uint8_t)(length & 0xFF);
    record[1] = (uint8_t)(length >> 8);
    record[4] = kind;
    record[6] = sender;
    record[8] = view;
}

/* A timeout that carries the genesis certificate, in a place that is all zero. Its high vote is of the timeout's view; name 0 is none. */
static void put_timeout(uint8_t *timeout, uint8_t sender, uint8_t view, uint8_t name) {
    put_header(timeout, TIMEOUT, 5, sender, view);
    if (name != 0) timeout[16] = view;
    memset(timeout + 24, name, 32);
    timeout[56] = 3;
}

/* A certificate of five timeouts of view 3, in a place that is all zero. */
static size_t make(uint8_t *record) {
    static const uint8_t names[] = {0, 0xA1, 0xA1, 0xB1, 0xB1};
    size_t length = HEAD + sizeof names * TIMEOUT;
    put_header(record, length, 6, 5, 3);
    record[16] = sizeof names;
    for (uint8_t sender = 0; sender < sizeof names; sender++)
        put_timeout(record + HEAD + sender * TIMEOUT, sender, 3, names[sender]);
    return length;
}

static uint64_t setting(const char *word) {
    char *end;
    unsigned long long number = strtoull(word, &end, 10);
    if (*word < '0' || *word > '9' || *end != 0 || number > 32) fail("F, C and K are numbers, at most 32");
    return number;
}

static int report(uint64_t f, uint64_t c, uint64_t k, const uint8_t *record, size_t length) {
    hydrangea_decisive_reply reply = hydrangea_decisive(f, c, k, 3 * f + 2 * c + k + 1, record, length);
    if (reply.refusal != 0) {
        unsigned long long refusal = reply.refusal;
        printf("Refused by %llu: %s.\n", refusal, meaning(refusal));
        return 1;
    }
    if (reply.found)
        printf("The choice hung on the timeout of replica %llu.\n", (unsigned long long)reply.sender);
    else
        printf("The choice hung on no single timeout.\n");
    return 0;
}

int main(int count, char **words) {
    static uint8_t record[LONGEST + 1]; /* with a byte too many it is refused by 3 */
    if (count == 1) return report(1, 1, 0, record, make(record));
    if (count != 4) fail("usage: decisive [F C K < CERTIFICATE]");
    uint64_t f = setting(words[1]), c = setting(words[2]), k = setting(words[3]);
    return report(f, c, k, record, fread(record, 1, sizeof record, stdin));
}
