/*
 * Judges rows from standard input, each in a thread that has MTC_STACK bytes of stack and no more, and prints a line for each verdict,
 * and at the end how many of these bytes were written at most, by the system's part of the thread too. A row is a certificate and a
 * store, each after its length, and a time: numbers of eight bytes in this machine's order.
 */
#include "mtc.h"
#include <pthread.h>
#include <stdio.h>
#include <stdlib.h>
#include <string.h>
#include <sys/mman.h>

/* What no one may touch below the stack, and what the stack is filled with before each row. */
#define GUARD (1 << 20)
#define UNUSED 0xa5

struct row {
    uint8_t *cert, *store;
    uint64_t cert_length, store_length;
    int64_t now;
    struct mtc_verdict verdict;
};

static void *judged(void *given) {
    struct row *row = given;
    uint8_t out[64];
    uint64_t length;
    mtc_judge(row->cert, row->cert_length, row->store, row->store_length, row->now, &row->verdict);
    mtc_public_key(row->cert, row->cert_length, out, sizeof out, &length);
    mtc_dns_name(row->cert, row->cert_length, 3, out, sizeof out, &length);
    mtc_entry_hash_in(row->cert, row->cert_length, 2, out, sizeof out, &length);
    return NULL;
}

static int reads(void *to, size_t length) { return fread(to, 1, length, stdin) == length; }

static uint8_t *bytes(uint64_t length) {
    uint8_t *found = malloc(length + 1);
    if (!found || !reads(found, length)) exit(5);
    return found;
}

static size_t used(const uint8_t *stack) {
    size_t unused = 0;
    while (unused < MTC_STACK && stack[unused] == UNUSED) unused++;
    return MTC_STACK - unused;
}

int main(void) {
    pthread_attr_t attributes;
    uint8_t *mapped = mmap(NULL, GUARD + MTC_STACK, PROT_READ | PROT_WRITE, MAP_PRIVATE | MAP_ANONYMOUS, -1, 0), *stack = mapped + GUARD;
    if (mapped == MAP_FAILED || mprotect(mapped, GUARD, PROT_NONE)) return 5;
    if (pthread_attr_init(&attributes) || pthread_attr_setstack(&attributes, stack, MTC_STACK)) return 5;
    size_t most = 0;
    for (struct row row; reads(&row.cert_length, sizeof row.cert_length);) {
        row.cert = bytes(row.cert_length);
        if (!reads(&row.store_length, sizeof row.store_length)) return 5;
        row.store = bytes(row.store_length);
        memset(stack, UNUSED, MTC_STACK);
        pthread_t thread;
        if (!reads(&row.now, sizeof row.now) || pthread_create(&thread, &attributes, judged, &row) || pthread_join(thread, NULL))
            return 5;
        if (used(stack) > most) most = used(stack);
        struct mtc_verdict *v = &row.verdict;
        printf("%u %u %llu %llu %llu %llu %llu\n", v->status, v->refusal, (unsigned long long)v->number, (unsigned long long)v->index,
               (unsigned long long)v->start, (unsigned long long)v->end, (unsigned long long)v->cosigners);
        fflush(stdout);
        free(row.cert);
        free(row.store);
    }
    printf("%zu\n", most);
    return 0;
}
