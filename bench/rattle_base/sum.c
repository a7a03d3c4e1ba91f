// The Internet checksum over 100 MB by the plain loop: the words summed in 64 bits and folded once.
//     cc -O2 -march=x86-64-v2 sum.c -o sum && ./sum
#include <stdint.h>
#include <stdio.h>
#include <stdlib.h>
#include <time.h>

__attribute__((noinline)) static uint16_t sum16(const uint8_t *bytes, size_t count) {
    uint64_t sum = 0;
    size_t at = 0;
    for (; at + 1 < count; at += 2) {
        sum += (uint64_t)bytes[at] << 8 | bytes[at + 1];
    }
    if (at < count) {
        sum += (uint64_t)bytes[at] << 8;
    }
    return sum == 0 ? 65535 : 65535 - (uint16_t)((sum - 1) % 65535 + 1);
}

int main(void) {
    size_t count = 104857600;
    uint8_t *bytes = malloc(count);
    if (!bytes) {
        return 1;
    }
    for (size_t at = 0; at < count; at++) {
        bytes[at] = (uint8_t)(at * 7 % 251);
    }
    for (int turn = 0; turn < 3; turn++) {
        struct timespec start, end;
        clock_gettime(CLOCK_MONOTONIC, &start);
        unsigned sum = sum16(bytes, count);
        clock_gettime(CLOCK_MONOTONIC, &end);
        long ns = (end.tv_sec - start.tv_sec) * 1000000000L + end.tv_nsec - start.tv_nsec;
        printf("C: sum16 of %zu bytes: %u, %ld ns\n", count, sum, ns);
    }
    return 0;
}
