/*
 * Calls each function with a null pointer in the place of no bytes, and then with one where there have to be bytes, or a place for the
 * answer. nulls CERT, whose bytes are those of a certificate: prints what was answered.
 */
#include "mtc.h"
#include <stdio.h>

static uint8_t cert[1 << 16], out[64];

int main(int count, char **arguments) {
    FILE *file = fopen(arguments[count - 1], "rb");
    if (!file) return 5;
    size_t size = fread(cert, 1, sizeof cert, file);
    struct mtc_verdict verdict = {7, 7, 7, 7, 7, 7, 7};
    uint64_t length = 7;
    printf("%u", mtc_judge(NULL, 0, NULL, 0, 0, &verdict));
    printf(" %u", verdict.refusal);
    printf(" %u", mtc_judge(cert, size, NULL, 0, 0, &verdict));
    printf(" %u", mtc_public_key(NULL, 0, NULL, 0, &length));
    printf(" %u", mtc_public_key(cert, size, NULL, 0, &length));
    printf(" %u", mtc_dns_name(cert, size, 0, NULL, 0, &length));
    printf(" %u", mtc_entry_hash(cert, size, NULL, 0, &length));
    printf(" %u", mtc_entry_hash_in(cert, size, 1, NULL, 0, &length));
    printf(" %u", mtc_refusal_name(MTC_EXPIRED, NULL, 0, &length));
    printf(" %u", mtc_field_name(MTC_FIELD_HASH, NULL, 0, &length));
    printf(" %u\n", (unsigned)length);
    struct mtc_verdict same = {7, 7, 7, 7, 7, 7, 7};
    length = 7;
    printf("%u", mtc_judge(NULL, 1, cert, size, 0, &same));
    printf(" %u", mtc_judge(cert, size, NULL, 1, 0, &same));
    printf(" %u", same.status);
    printf(" %u", mtc_judge(cert, size, cert, size, 0, NULL));
    printf(" %u", mtc_public_key(NULL, 1, out, sizeof out, &length));
    printf(" %u", mtc_public_key(cert, size, NULL, 1, &length));
    printf(" %u", mtc_dns_name(cert, size, 0, NULL, 1, &length));
    printf(" %u", mtc_entry_hash(cert, size, NULL, 1, &length));
    printf(" %u", mtc_entry_hash_in(NULL, 1, 1, out, sizeof out, &length));
    printf(" %u", mtc_refusal_name(MTC_EXPIRED, NULL, 1, &length));
    printf(" %u", mtc_field_name(MTC_FIELD_HASH, NULL, 1, &length));
    printf(" %u", (unsigned)length);
    printf(" %u", mtc_public_key(cert, size, out, sizeof out, NULL));
    printf(" %u", mtc_dns_name(cert, size, 0, out, sizeof out, NULL));
    printf(" %u", mtc_entry_hash(cert, size, out, sizeof out, NULL));
    printf(" %u", mtc_entry_hash_in(cert, size, 1, out, sizeof out, NULL));
    printf(" %u", mtc_refusal_name(MTC_EXPIRED, out, sizeof out, NULL));
    printf(" %u\n", mtc_field_name(MTC_FIELD_HASH, out, sizeof out, NULL));
    return 0;
}
