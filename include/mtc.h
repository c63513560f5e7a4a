/*
 * mtc.h: how a relying party judges certificates that a Merkle tree log has issued.
 *
 * The library is the crate mtc_c: each function keeps its contract, which is proved. What this
 * header puts in front of them is tested alone. docs/LIBRARY.md says how to build, and shows
 * callers.
 *
 * Interface: MTC_ABI is the number of what this header declares, and mtc_abi() that of the library.
 * Compare them before any other call: a library that is loaded may be another one than was linked.
 * A struct, a parameter or the meaning of a number that changes, and a function that goes away,
 * give another number, and libmtc.so another name. A function or a refusal that is new gives none:
 * take a refusal that you don't know as one, since the status alone says whether a certificate is
 * accepted.
 *
 * Size: a certificate of more than MTC_MAX_CERTIFICATE bytes is MTC_TOO_LONG, and isn't read. A
 * store has no limit. It is the caller's own file: never judge by one of strangers.
 *
 * Stack: a call needs at most MTC_STACK bytes, whatever the certificate. Tables in each other, of
 * which a store needs few, take more: a store of thousands, 3 MiB.
 *
 * A caller owes: each pointer leads to as many bytes as its length says, which no one changes
 * during the call; no two buffers that the call writes lie over one another or over what it reads.
 * malloc, realloc and free are of one allocator. No function is called in a signal handler, or in
 * the child of a fork of a program with threads. Threads may call at the same time, each with
 * buffers of its own.
 *
 * Null pointers: where a length is 0 the pointer may be null, also that of a buffer to write. Any
 * other null pointer is MTC_BAD_CALL, and nothing is read or written. So it is for who includes
 * this header. Who calls libmtc.so without it, as ctypes does, owes pointers that aren't null.
 */
#ifndef MTC_H
#define MTC_H

#include <stddef.h>
#include <stdint.h>

#ifdef __cplusplus
extern "C" {
#endif

#define MTC_ABI 1
#define MTC_MAX_CERTIFICATE 57344
#define MTC_STACK 131072
/* No name of a refusal or of a field has more bytes. */
#define MTC_MAX_NAME 32

/* What a function answers. */
enum {
    MTC_DONE = 0,         /* the certificate is accepted; or the bytes are written */
    MTC_BAD_CALL = 1,     /* a pointer is null, and its length isn't 0; nothing is written */
    MTC_BAD_FORM = 2,     /* the certificate or the store isn't in its form */
    MTC_REFUSED = 3,      /* the certificate is refused */
    MTC_NO_SUCH_NAME = 4, /* there is no dNSName, refusal or field with this number */
    MTC_NO_MEMORY = 8,    /* memory was refused, and nothing is said of the certificate */
    MTC_TOO_LONG = 9      /* the certificate has too many bytes; or the buffer is too short, and
                             isn't written */
};

/*
 * Why a certificate isn't accepted. After each stands what `number` then is. mtc_refusal_name gives
 * the name, as `mtc verify` prints it: docs/COMMANDS.md says what to do.
 */
enum {
    MTC_NO_REFUSAL = 0,

    /* the store, with the status MTC_BAD_FORM; a field is one of MTC_FIELD_.. */
    MTC_NOT_TOML = 1,
    MTC_UNKNOWN_KEY = 2,
    MTC_MISSING = 3,   /* the field */
    MTC_BAD_VALUE = 4, /* the field */
    MTC_REPEATED_ID = 5,
    MTC_REPEATED_SUBTREE = 6,
    MTC_BAD_RANGE = 7,

    /* the certificate, with the status MTC_BAD_FORM */
    MTC_TRUNCATED = 16,   /* the offset of the element in the certificate; so up to MTC_TRAILING */
    MTC_LONG_FORM = 17,
    MTC_HIGH_TAG = 18,
    MTC_WRONG_TAG = 19,
    MTC_BAD_INTEGER = 20,
    MTC_BAD_BOOL = 21,
    MTC_BAD_OID = 22,
    MTC_BAD_BITS = 23,
    MTC_SET_ORDER = 24,
    MTC_TRAILING = 25,
    MTC_BAD_VERSION = 32,
    MTC_BAD_SERIAL = 33,
    MTC_BAD_TIME = 34,
    MTC_ALGORITHMS_DIFFER = 35,
    MTC_REPEATED_EXTENSION = 36,
    MTC_UNIQUE_ID = 37,
    MTC_BAD_EXTENSION = 38,
    MTC_BAD_NAME = 39,

    /* the certificate, with the status MTC_TOO_LONG */
    MTC_CERTIFICATE_TOO_LONG = 40,

    /* the proof in the certificate, with the status MTC_BAD_FORM */
    MTC_PROOF_SHORT = 48, /* the offset in the proof */
    MTC_PROOF_HASH_LENGTH = 49,
    MTC_PROOF_TRAILING = 50,
    MTC_PROOF_EMPTY_ID = 51, /* the offset in the proof */

    /* the judgement, with the status MTC_REFUSED */
    MTC_ALGORITHM = 64,
    MTC_UNKNOWN_LOG = 65,
    MTC_NOT_YET = 66,
    MTC_EXPIRED = 67,
    MTC_UNKNOWN_CRITICAL = 68,
    MTC_REVOKED = 69,
    MTC_BAD_SUBTREE = 70,
    MTC_OUTSIDE = 71,
    MTC_WRONG_LENGTH = 72,
    MTC_LANDMARK_DIFFERS = 73,
    MTC_TOO_FEW_COSIGNERS = 74 /* the first rule that isn't met, from 1; 0 where there is none */
};

/* The fields of a store file. mtc_field_name gives their names. */
enum {
    MTC_FIELD_LOG_ID = 0,
    MTC_FIELD_COSIGNER_ID = 1,
    MTC_FIELD_COSIGNER_KEY = 2,
    MTC_FIELD_COUNT = 3,
    MTC_FIELD_COSIGNERS = 4,
    MTC_FIELD_START = 5,
    MTC_FIELD_END = 6,
    MTC_FIELD_HASH = 7,
    MTC_FIELD_TABLE = 8,
    MTC_FIELD_ALGORITHM_FROM = 9
};

/* What is judged of a certificate. */
struct mtc_verdict {
    uint32_t status;    /* MTC_DONE, MTC_BAD_FORM, MTC_REFUSED, MTC_NO_MEMORY or MTC_TOO_LONG */
    uint32_t refusal;   /* why it isn't accepted, or 0 */
    uint64_t number;    /* what belongs to the refusal, or 0 */
    uint64_t index;     /* the index of its entry in the log; this and what follows is 0 where it
                           isn't accepted */
    uint64_t start;     /* the subtree [start, end) that its proof names */
    uint64_t end;
    uint64_t cosigners; /* bit i is set where the cosigner with index i in the store counts; 0 where
                           the store trusts the hash of the subtree itself */
};

/* The number of the library's interface: this header declares it where that is MTC_ABI. */
uint32_t mtc_abi(void);

/*
 * Judges a certificate (DER) by a store file (TOML) at a time, in seconds since
 * 1970-01-01T00:00:00Z. Writes the verdict, and answers its status. MTC_TOO_LONG comes first, then
 * the first refusal in the order of `mtc verify`. MTC_DONE says nothing of whom the caller wants to
 * reach, nor for what the key may be used: compare the names (mtc_dns_name).
 */
uint32_t mtc_judge(const uint8_t *cert, size_t cert_length, const uint8_t *store,
                   size_t store_length, int64_t now, struct mtc_verdict *verdict);

/*
 * The calls that follow write the length of what they copy out, and put that at the start of the
 * buffer where it fits. The length is 0 where there is nothing to copy out.
 */

/*
 * The name of a refusal, at most MTC_MAX_NAME bytes without a zero at the end: MTC_DONE,
 * MTC_NO_SUCH_NAME or MTC_TOO_LONG.
 */
uint32_t mtc_refusal_name(uint32_t refusal, uint8_t *out, size_t out_length, uint64_t *length);

/* The same of a field of a store file, which is the number of MTC_MISSING and MTC_BAD_VALUE. */
uint32_t mtc_field_name(uint64_t field, uint8_t *out, size_t out_length, uint64_t *length);

/*
 * Those that follow want the bytes of a certificate that mtc_judge has accepted: they read it, and
 * judge nothing. They answer MTC_DONE, MTC_BAD_FORM where the bytes are no certificate or too many,
 * MTC_NO_SUCH_NAME or MTC_TOO_LONG of the buffer.
 */

/* The SubjectPublicKeyInfo of the certificate (DER). */
uint32_t mtc_public_key(const uint8_t *cert, size_t cert_length, uint8_t *out, size_t out_length,
                        uint64_t *length);

/* The dNSName with this number, from 0 on. It may have any bytes: compare it by its length. */
uint32_t mtc_dns_name(const uint8_t *cert, size_t cert_length, uint64_t number, uint8_t *out,
                      size_t out_length, uint64_t *length);

/*
 * The hash of the certificate's entry in the log, 32 bytes: a leaf of the tree of RFC 9162. The
 * entry has form 1: the log was not switched before it.
 */
uint32_t mtc_entry_hash(const uint8_t *cert, size_t cert_length, uint8_t *out, size_t out_length,
                        uint64_t *length);

/*
 * As mtc_entry_hash, for a given form: 2 if the store's `algorithm_from` is at most the entry's
 * index, and 1 otherwise. MTC_BAD_FORM answers any other number.
 */
uint32_t mtc_entry_hash_in(const uint8_t *cert, size_t cert_length, uint32_t form, uint8_t *out,
                           size_t out_length, uint64_t *length);

/*
 * What stands between a caller and the library: a null pointer with length 0 becomes that of a byte
 * which is neither read nor written, and any other is MTC_BAD_CALL.
 */
static inline int mtc_lacks(const void *bytes, size_t length) { return !bytes && length; }

static inline const uint8_t *mtc_read(const uint8_t *bytes) {
    static const uint8_t none = 0;
    return bytes ? bytes : &none;
}

static inline uint8_t *mtc_written(uint8_t *bytes) {
    static uint8_t none;
    return bytes ? bytes : &none;
}

static inline uint32_t mtc_safe_judge(const uint8_t *cert, size_t cert_length, const uint8_t *store,
                                      size_t store_length, int64_t now,
                                      struct mtc_verdict *verdict) {
    if (mtc_lacks(cert, cert_length) || mtc_lacks(store, store_length) || !verdict)
        return MTC_BAD_CALL;
    return mtc_judge(mtc_read(cert), cert_length, mtc_read(store), store_length, now, verdict);
}

static inline uint32_t mtc_safe_refusal_name(uint32_t refusal, uint8_t *out, size_t out_length,
                                             uint64_t *length) {
    if (mtc_lacks(out, out_length) || !length)
        return MTC_BAD_CALL;
    return mtc_refusal_name(refusal, mtc_written(out), out_length, length);
}

static inline uint32_t mtc_safe_field_name(uint64_t field, uint8_t *out, size_t out_length,
                                           uint64_t *length) {
    if (mtc_lacks(out, out_length) || !length)
        return MTC_BAD_CALL;
    return mtc_field_name(field, mtc_written(out), out_length, length);
}

static inline uint32_t mtc_safe_public_key(const uint8_t *cert, size_t cert_length, uint8_t *out,
                                           size_t out_length, uint64_t *length) {
    if (mtc_lacks(cert, cert_length) || mtc_lacks(out, out_length) || !length)
        return MTC_BAD_CALL;
    return mtc_public_key(mtc_read(cert), cert_length, mtc_written(out), out_length, length);
}

static inline uint32_t mtc_safe_dns_name(const uint8_t *cert, size_t cert_length, uint64_t number,
                                         uint8_t *out, size_t out_length, uint64_t *length) {
    if (mtc_lacks(cert, cert_length) || mtc_lacks(out, out_length) || !length)
        return MTC_BAD_CALL;
    return mtc_dns_name(mtc_read(cert), cert_length, number, mtc_written(out), out_length, length);
}

static inline uint32_t mtc_safe_entry_hash(const uint8_t *cert, size_t cert_length, uint8_t *out,
                                           size_t out_length, uint64_t *length) {
    if (mtc_lacks(cert, cert_length) || mtc_lacks(out, out_length) || !length)
        return MTC_BAD_CALL;
    return mtc_entry_hash(mtc_read(cert), cert_length, mtc_written(out), out_length, length);
}

static inline uint32_t mtc_safe_entry_hash_in(const uint8_t *cert, size_t cert_length,
                                              uint32_t form, uint8_t *out, size_t out_length,
                                              uint64_t *length) {
    if (mtc_lacks(cert, cert_length) || mtc_lacks(out, out_length) || !length)
        return MTC_BAD_CALL;
    return mtc_entry_hash_in(mtc_read(cert), cert_length, form, mtc_written(out), out_length,
                             length);
}

#define mtc_judge mtc_safe_judge
#define mtc_refusal_name mtc_safe_refusal_name
#define mtc_field_name mtc_safe_field_name
#define mtc_public_key mtc_safe_public_key
#define mtc_dns_name mtc_safe_dns_name
#define mtc_entry_hash mtc_safe_entry_hash
#define mtc_entry_hash_in mtc_safe_entry_hash_in

/*
 * The name of a refusal or of a field as a text of C, in the caller's room: no character where the
 * library knows none.
 */
static inline const char *mtc_refusal_text(uint32_t refusal, char room[MTC_MAX_NAME + 1]) {
    uint64_t length;
    uint32_t status = mtc_refusal_name(refusal, (uint8_t *)room, MTC_MAX_NAME, &length);
    room[status == MTC_DONE ? length : 0] = 0;
    return room;
}

static inline const char *mtc_field_text(uint64_t field, char room[MTC_MAX_NAME + 1]) {
    uint64_t length;
    uint32_t status = mtc_field_name(field, (uint8_t *)room, MTC_MAX_NAME, &length);
    room[status == MTC_DONE ? length : 0] = 0;
    return room;
}

#ifdef __cplusplus
}
#endif

#endif
