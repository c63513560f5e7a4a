/* judge CERT STORE NOW: what the library says of a certificate, as `mtc verify` does. */
#include "mtc.h"
#include <errno.h>
#include <stdio.h>
#include <stdlib.h>

static uint8_t *bytes_of(const char *name, size_t *length) {
    size_t capacity = 1 << 16;
    uint8_t *bytes = malloc(capacity);
    FILE *file = fopen(name, "rb");
    if (!file) { perror(name); exit(5); }
    *length = 0;
    while (bytes && (*length += fread(bytes + *length, 1, capacity - *length, file)) == capacity)
        bytes = realloc(bytes, capacity *= 2);
    if (!bytes) { fprintf(stderr, "judge: no memory\n"); exit(MTC_NO_MEMORY); }
    /* A store that is cut may lack what it says is revoked. */
    if (ferror(file)) { perror(name); exit(5); }
    fclose(file);
    return bytes;
}

/* A number, and nothing before or after it. */
static int64_t seconds_of(const char *text) {
    char *end;
    errno = 0;
    long long seconds = strtoll(text, &end, 10);
    if (errno || end == text || *end) { fprintf(stderr, "judge: NOW: %s\n", text); exit(1); }
    return seconds;
}

/* The refusal by its name, and what belongs to it: the name of a field, or a number. */
static void print_refusal(const struct mtc_verdict *verdict) {
    char name[MTC_MAX_NAME + 1], field[MTC_MAX_NAME + 1];
    printf("not accepted: %s ", mtc_refusal_text(verdict->refusal, name));
    if (verdict->refusal == MTC_MISSING || verdict->refusal == MTC_BAD_VALUE)
        printf("%s\n", mtc_field_text(verdict->number, field));
    else
        printf("%llu\n", (unsigned long long)verdict->number);
}

int main(int count, char **arguments) {
    if (count != 4) { fprintf(stderr, "judge CERT STORE NOW\n"); return 1; }
    if (mtc_abi() != MTC_ABI) { fprintf(stderr, "judge: the library has interface %u\n", mtc_abi()); return 1; }
    int64_t now = seconds_of(arguments[3]);
    size_t cert_length, store_length;
    uint8_t *cert = bytes_of(arguments[1], &cert_length);
    uint8_t *store = bytes_of(arguments[2], &store_length);
    struct mtc_verdict verdict;
    uint32_t status = mtc_judge(cert, cert_length, store, store_length, now, &verdict);
    if (status == MTC_DONE)
        printf("accepted %llu\n", (unsigned long long)verdict.index);
    else if (status == MTC_NO_MEMORY)
        fprintf(stderr, "judge: no memory\n");
    else
        print_refusal(&verdict);
    return (int)status;
}
