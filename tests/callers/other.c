/* Stands for a library of interface ABI, in which memory is always refused. */
#include <stdint.h>
#include <stddef.h>

struct verdict { uint32_t status, refusal; uint64_t rest[5]; };

uint32_t mtc_abi(void) { return ABI; }

uint32_t mtc_judge(const uint8_t *cert, size_t cert_length, const uint8_t *store, size_t store_length, int64_t now,
                   struct verdict *verdict) {
    (void)cert, (void)cert_length, (void)store, (void)store_length, (void)now;
    *verdict = (struct verdict){8, 0, {0}};
    return 8;
}

uint32_t mtc_refusal_name(uint32_t refusal, uint8_t *out, size_t out_length, uint64_t *length) {
    (void)refusal, (void)out, (void)out_length;
    *length = 0;
    return 4;
}

uint32_t mtc_field_name(uint64_t field, uint8_t *out, size_t out_length, uint64_t *length) {
    return mtc_refusal_name((uint32_t)field, out, out_length, length);
}
