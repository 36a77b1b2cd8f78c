/*
 * Checks one operation proof over and over from C, and prints how many nanoseconds of the processor a check took, and how many
 * requests for memory it made. Linked with --wrap=malloc and --wrap=realloc, so that the requests are counted.
 *
 *     c_checks FAMILY CHUNK LOCATION CHECKS     standard input has three lines in hexadecimal: root, operation, proof
 */
#include <stdio.h>
#include <stdlib.h>
#include <string.h>
#include <time.h>
#include "gawerunoa.h"

void *__real_malloc(size_t size);
void *__real_realloc(void *at, size_t size);
void *__wrap_malloc(size_t size);
void *__wrap_realloc(void *at, size_t size);

static size_t requests;

void *__wrap_malloc(size_t size) {
    requests++;
    return __real_malloc(size);
}

void *__wrap_realloc(void *at, size_t size) {
    requests++;
    return __real_realloc(at, size);
}

static size_t line(uint8_t *bytes, size_t room) {
    size_t length = 0;
    unsigned byte;
    for (int c; length < room && (c = getchar()) != '\n' && c != EOF; length++) {
        ungetc(c, stdin);
        if (scanf("%2x", &byte) != 1) exit(3);
        bytes[length] = (uint8_t)byte;
    }
    return length;
}

int main(int count, char **words) {
    static uint8_t root[64], operation[4096], proof[65536];
    if (count != 5) return 2;
    uint32_t family = strcmp(words[1], "mmb") ? GAWERUNOA_MMR : GAWERUNOA_MMB;
    size_t chunk_size = strtoull(words[2], NULL, 10), checks = strtoull(words[4], NULL, 10);
    uint64_t location = strtoull(words[3], NULL, 10);
    size_t root_length = line(root, sizeof root);
    size_t operation_length = line(operation, sizeof operation);
    size_t proof_length = line(proof, sizeof proof);
    requests = 0;
    clock_t start = clock();
    for (size_t i = 0; i < checks; i++) {
        if (gawerunoa_check_operation(family, GAWERUNOA_SHA256, chunk_size, location, proof, proof_length, operation,
                operation_length, root, root_length) != GAWERUNOA_YES) return 1;
    }
    double seconds = (double)(clock() - start) / CLOCKS_PER_SEC;
    printf("%.1f %.2f\n", 1e9 * seconds / (double)checks, (double)requests / (double)checks);
    return 0;
}
