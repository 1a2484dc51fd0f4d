/* SHA3-256 of a mebibyte and of a short message: ours and OpenSSL's, interleaved in one run, by the best round of each. The ratio has a
 * limit that the mebibyte must reach. */
#include <openssl/evp.h>
#include <stdint.h>
#include <stdio.h>
#include <stdlib.h>
#include <string.h>

#include "../include/jackdawnail.h"
#include "clock.h"

static const double limit = 0.95;

static int measure(const char *name, const uint8_t *message, size_t length, int times, double least_ratio) {
    uint8_t ours[32], theirs[32];
    double best_ours = 1e9, best_theirs = 1e9;
    const EVP_MD *md = EVP_sha3_256();
    EVP_MD_CTX *context = EVP_MD_CTX_new();
    for (int round = 0; round < 600; round++) {
        double start = seconds();
        for (int i = 0; i < times; i++) jdn_digest(message, length, ours, 32);
        double middle = seconds();
        for (int i = 0; i < times; i++) {
            EVP_DigestInit_ex(context, md, NULL);
            EVP_DigestUpdate(context, message, length);
            EVP_DigestFinal_ex(context, theirs, NULL);
        }
        double end = seconds();
        best_ours = least(best_ours, middle - start);
        best_theirs = least(best_theirs, end - middle);
    }
    EVP_MD_CTX_free(context);
    double bytes = (double)length * times, ratio = best_theirs / best_ours;
    printf("sha3-256, %s: ours %.0f MB/s, OpenSSL %.0f MB/s, ratio %.2f\n", name, bytes / best_ours / 1e6, bytes / best_theirs / 1e6, ratio);
    if (memcmp(ours, theirs, 32)) puts("the digests differ");
    if (ratio < least_ratio) printf("the ratio is below its limit, %.2f\n", least_ratio);
    return memcmp(ours, theirs, 32) || ratio < least_ratio;
}

int main(void) {
    size_t length = 1 << 20;
    uint8_t *message = malloc(length);
    if (!message) return 1;
    for (size_t i = 0; i < length; i++) message[i] = (uint8_t)(i * 7 + i / 256);
    int wrong = measure("1 MiB", message, length, 1, limit) | measure("4 KiB", message, 4096, 50, 0);
    free(message);
    return wrong;
}
