/*
 * Answers each line of standard input as answers.c does, but by the four calls over a struct of what is agreed. C and C++ compile it.
 */
#ifndef _GNU_SOURCE
#define _GNU_SOURCE
#endif
#include "lines.h"

static int begins(const char *call, const char *word) {
    return !strncmp(call, word, strlen(word));
}

/* The kind of keys and the encoding of values that the name of one of the twelve calls has, and the rest of the name. */
static const char *kind_in(const char *call, struct gawerunoa_agreed *agreed) {
    if (begins(call, "string_")) {
        agreed->keys = GAWERUNOA_STRINGS;
        call += strlen("string_");
    }
    if (begins(call, "sized_") || begins(call, "fixed_")) {
        agreed->values = begins(call, "sized_") ? GAWERUNOA_SIZED : GAWERUNOA_FIXED;
        call += strlen("sized_");
    }
    return call;
}

static int32_t operation(const struct gawerunoa_agreed *agreed) {
    uint64_t location = number();
    struct bytes proof = next_bytes(), operation = next_bytes(), root = next_bytes();
    int32_t answer = gawerunoa_ask_operation(agreed, 1, location, proof.at, proof.length, operation.at, operation.length,
        root.at, root.length);
    free(proof.at), free(operation.at), free(root.at);
    return answer;
}

static int32_t range(struct gawerunoa_agreed *agreed) {
    agreed->max_digests = number();
    uint64_t start = number();
    struct bytes proof = next_bytes();
    struct list operations = next_list(), chunks = next_list();
    struct bytes root = next_bytes();
    int32_t answer = gawerunoa_ask_range(agreed, 1, start, proof.at, proof.length,
        operations.joined.at, operations.joined.length, operations.lengths, operations.count,
        chunks.joined.at, chunks.joined.length, chunks.lengths, chunks.count, root.at, root.length);
    free(proof.at), free(operations.joined.at), free(operations.lengths);
    free(chunks.joined.at), free(chunks.lengths), free(root.at);
    return answer;
}

static int32_t value(struct gawerunoa_agreed *agreed) {
    struct bytes proof = next_bytes(), key = next_bytes(), value = next_bytes(), root = next_bytes();
    if (agreed->values != GAWERUNOA_VARIABLE) agreed->min_value_length = agreed->max_value_length = value.length;
    int32_t answer = gawerunoa_ask_value(agreed, 1, proof.at, proof.length, key.at, key.length, value.at, value.length,
        root.at, root.length);
    free(proof.at), free(key.at), free(value.at), free(root.at);
    return answer;
}

static int32_t absence(struct gawerunoa_agreed *agreed) {
    agreed->min_value_length = agreed->max_value_length = number();
    if (agreed->values == GAWERUNOA_VARIABLE) agreed->max_value_length = number();
    struct bytes proof = next_bytes(), key = next_bytes(), root = next_bytes();
    int32_t answer = gawerunoa_ask_absence(agreed, 1, proof.at, proof.length, key.at, key.length, root.at, root.length);
    free(proof.at), free(key.at), free(root.at);
    return answer;
}

static int32_t answer(const char *call) {
    struct gawerunoa_agreed agreed;
    memset(&agreed, 0, sizeof agreed);
    call = kind_in(call, &agreed);
    agreed.family = (uint32_t)number();
    agreed.hash = (uint32_t)number();
    agreed.chunk_size = number();
    if (agreed.keys == GAWERUNOA_STRINGS) {
        agreed.min_key_length = number();
        agreed.max_key_length = number();
    }
    return !strcmp(call, "operation") ? operation(&agreed)
        : !strcmp(call, "range") ? range(&agreed)
        : !strcmp(call, "value") ? value(&agreed)
        : !strcmp(call, "absence") ? absence(&agreed)
        : INT32_MIN;
}

int main(void) {
    char *line = NULL;
    size_t room = 0;
    while (getline(&line, &room, stdin) > 0) {
        const char *call = strtok(line, " \n");
        if (!call) return 3;
        printf("%d\n", (int)answer(call));
    }
    free(line);
    return 0;
}
