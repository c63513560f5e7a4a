#include <openssl/sha.h>
#include <stdio.h>
#include <stdlib.h>
#include <string.h>
#include <time.h>

/* The calls for SHA-256 alone: those for any digest look the algorithm up for each message, which takes some three times
   as long as to hash 64 bytes. */
static void measured(unsigned char *message, size_t length, long count) {
    struct timespec a, b;
    unsigned char digest[32];
    SHA256_CTX running;
    clock_gettime(CLOCK_THREAD_CPUTIME_ID, &a);
    for (long i = 0; i < count; i++) {
        SHA256_Init(&running);
        SHA256_Update(&running, message, length);
        SHA256_Final(digest, &running);
        message[0] = digest[0];
    }
    clock_gettime(CLOCK_THREAD_CPUTIME_ID, &b);
    printf("%zu %lld %ld\n", length, (b.tv_sec - a.tv_sec) * 1000000000LL + b.tv_nsec - a.tv_nsec, count);
}

int main(void) {
    unsigned char *message = malloc(1048576);
    memset(message, 7, 1048576);
    measured(message, 1048576, 200);
    measured(message, 64, 2000000);
    return 0;
}
