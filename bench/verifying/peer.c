/* Times how long a certificate is judged, each time from its bytes on: by mtc_judge with the bytes of a store, and a chain of X.509 by
 * OpenSSL with a root that it holds already. Prints a line NAME NANOSECONDS for each case: processor time, the least of five rounds.
 * Usage: peer NOW (mtc NAME CERT STORE | x509 NAME SERVER INTERMEDIATE ROOT) ..     X.509 in DER, judged at the time that it is */
#include "mtc.h"
#include <openssl/x509.h>
#include <openssl/x509_vfy.h>
#include <stdio.h>
#include <stdlib.h>
#include <string.h>
#include <time.h>

enum { ROUNDS = 5, MOST = 1 << 20 };
static const double LEAST = 1e8; /* nanoseconds of a round */

struct bytes {
    uint8_t *at;
    size_t length;
};

static void die(const char *why, const char *what) {
    fprintf(stderr, "wrong: %s: %s\n", why, what);
    exit(1);
}

static struct bytes read_file(const char *name) {
    struct bytes found = {malloc(MOST), 0};
    FILE *file = fopen(name, "rb");
    if (!file || !found.at) die("no file", name);
    found.length = fread(found.at, 1, MOST, file);
    fclose(file);
    return found;
}

static double nanoseconds(void) {
    struct timespec now;
    clock_gettime(CLOCK_THREAD_CPUTIME_ID, &now);
    return now.tv_sec * 1e9 + now.tv_nsec;
}

static X509 *certificate(struct bytes from) {
    const unsigned char *at = from.at;
    return d2i_X509(NULL, &at, (long)from.length);
}

struct judged {
    struct bytes first, second; /* a certificate and a store, or a server's certificate and its intermediate one */
    X509_STORE *roots;          /* of X.509 */
    int64_t now;
};

static int is_accepted(const struct judged *one) {
    struct mtc_verdict verdict;
    if (!one->roots)
        return mtc_judge(one->first.at, one->first.length, one->second.at, one->second.length, one->now, &verdict) == MTC_DONE;
    X509 *server = certificate(one->first), *between = certificate(one->second);
    STACK_OF(X509) *chain = sk_X509_new_null();
    X509_STORE_CTX *context = X509_STORE_CTX_new();
    int ok = server && between && chain && context && sk_X509_push(chain, between) &&
             X509_STORE_CTX_init(context, one->roots, server, chain) == 1;
    ok = ok && X509_verify_cert(context) == 1;
    X509_STORE_CTX_free(context);
    sk_X509_free(chain);
    X509_free(between);
    X509_free(server);
    return ok;
}

/* Nanoseconds of each of so many judgements. */
static double spent(const struct judged *one, long count, const char *name) {
    double start = nanoseconds();
    for (long done = 0; done < count; done++)
        if (!is_accepted(one)) die("not accepted", name);
    return (nanoseconds() - start) / count;
}

static void measure(const struct judged *one, const char *name) {
    long count = 1;
    while (spent(one, count, name) * count < LEAST) count *= 2;
    double least = spent(one, count, name);
    for (int round = 1; round < ROUNDS; round++) {
        double each = spent(one, count, name);
        least = each < least ? each : least;
    }
    printf("%s %.0f\n", name, least);
}

int main(int count, char **words) {
    if (count < 2) die("arguments", "NOW ..");
    for (int at = 2; at + 3 < count;) {
        struct judged one = {read_file(words[at + 2]), read_file(words[at + 3]), NULL, atoll(words[1])};
        const char *name = words[at + 1];
        if (!strcmp(words[at], "x509") && at + 4 < count) {
            one.roots = X509_STORE_new();
            X509 *root = certificate(read_file(words[at + 4]));
            if (!one.roots || !root || X509_STORE_add_cert(one.roots, root) != 1) die("no root", name);
            at += 5;
        } else {
            at += 4;
        }
        measure(&one, name);
    }
    return 0;
}
