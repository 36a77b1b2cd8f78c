/*
 * Answers each line of standard input with what the library says, a number on a line. A line has a call and its arguments in the
 * order of the header, with blanks between them: numbers in decimal, byte strings in hexadecimal, lists of them with commas
 * between, and - for no bytes and for no strings. Each byte string stands in memory of just its length, or nowhere where it is empty.
 */
#define _POSIX_C_SOURCE 200809L
#include "lines.h"

static int32_t operation(void) {
    uint32_t family = (uint32_t)number(), hash = (uint32_t)number();
    size_t chunk_size = number();
    uint64_t location = number();
    struct bytes proof = next_bytes(), operation = next_bytes(), root = next_bytes();
    int32_t answer = gawerunoa_check_operation(family, hash, chunk_size, location, proof.at, proof.length,
        operation.at, operation.length, root.at, root.length);
    free(proof.at), free(operation.at), free(root.at);
    return answer;
}

static int32_t range(void) {
    uint32_t family = (uint32_t)number(), hash = (uint32_t)number();
    size_t chunk_size = number(), max_digests = number();
    uint64_t start = number();
    struct bytes proof = next_bytes();
    struct list operations = next_list(), chunks = next_list();
    struct bytes root = next_bytes();
    int32_t answer = gawerunoa_check_range(family, hash, chunk_size, max_digests, start, proof.at, proof.length,
        operations.joined.at, operations.joined.length, operations.lengths, operations.count,
        chunks.joined.at, chunks.joined.length, chunks.lengths, chunks.count, root.at, root.length);
    free(proof.at), free(operations.joined.at), free(operations.lengths);
    free(chunks.joined.at), free(chunks.lengths), free(root.at);
    return answer;
}

/* What each call about a key begins with. */
struct agreed {
    uint32_t family, hash;
    size_t chunk_size;
};

static struct agreed agreed(void) {
    struct agreed it = {0, 0, 0};
    it.family = (uint32_t)number();
    it.hash = (uint32_t)number();
    it.chunk_size = number();
    return it;
}

typedef int32_t value_call(uint32_t, uint32_t, size_t, const uint8_t *, size_t, const uint8_t *, size_t, const uint8_t *, size_t,
    const uint8_t *, size_t);

static int32_t value(value_call *call) {
    struct agreed it = agreed();
    struct bytes proof = next_bytes(), key = next_bytes(), value = next_bytes(), root = next_bytes();
    int32_t answer = call(it.family, it.hash, it.chunk_size, proof.at, proof.length, key.at, key.length, value.at, value.length,
        root.at, root.length);
    free(proof.at), free(key.at), free(value.at), free(root.at);
    return answer;
}

typedef int32_t string_value_call(uint32_t, uint32_t, size_t, size_t, size_t, const uint8_t *, size_t, const uint8_t *, size_t,
    const uint8_t *, size_t, const uint8_t *, size_t);

static int32_t string_value(string_value_call *call) {
    struct agreed it = agreed();
    size_t least = number(), most = number();
    struct bytes proof = next_bytes(), key = next_bytes(), value = next_bytes(), root = next_bytes();
    int32_t answer = call(it.family, it.hash, it.chunk_size, least, most, proof.at, proof.length, key.at, key.length,
        value.at, value.length, root.at, root.length);
    free(proof.at), free(key.at), free(value.at), free(root.at);
    return answer;
}

/* The numbers that a call about a missing key is told of keys and values: as many as the call has of them. */
enum { NUMBERS = 4 };

static int32_t absence(size_t count, int32_t (*call)(struct agreed, const size_t *, struct bytes, struct bytes, struct bytes)) {
    struct agreed it = agreed();
    size_t numbers[NUMBERS] = {0};
    for (size_t i = 0; i < count; i++) numbers[i] = number();
    struct bytes proof = next_bytes(), key = next_bytes(), root = next_bytes();
    int32_t answer = call(it, numbers, proof, key, root);
    free(proof.at), free(key.at), free(root.at);
    return answer;
}

static int32_t any_absence(struct agreed it, const size_t *n, struct bytes proof, struct bytes key, struct bytes root) {
    return gawerunoa_check_absence(it.family, it.hash, it.chunk_size, n[0], n[1], proof.at, proof.length, key.at, key.length,
        root.at, root.length);
}

static int32_t fixed_absence(struct agreed it, const size_t *n, struct bytes proof, struct bytes key, struct bytes root) {
    return gawerunoa_check_fixed_absence(it.family, it.hash, it.chunk_size, n[0], proof.at, proof.length, key.at, key.length,
        root.at, root.length);
}

static int32_t sized_absence(struct agreed it, const size_t *n, struct bytes proof, struct bytes key, struct bytes root) {
    return gawerunoa_check_sized_absence(it.family, it.hash, it.chunk_size, n[0], proof.at, proof.length, key.at, key.length,
        root.at, root.length);
}

static int32_t string_absence(struct agreed it, const size_t *n, struct bytes proof, struct bytes key, struct bytes root) {
    return gawerunoa_check_string_absence(it.family, it.hash, it.chunk_size, n[0], n[1], n[2], n[3], proof.at, proof.length,
        key.at, key.length, root.at, root.length);
}

static int32_t string_sized_absence(struct agreed it, const size_t *n, struct bytes proof, struct bytes key, struct bytes root) {
    return gawerunoa_check_string_sized_absence(it.family, it.hash, it.chunk_size, n[0], n[1], n[2], proof.at, proof.length,
        key.at, key.length, root.at, root.length);
}

static int32_t answer(const char *call) {
    return !strcmp(call, "operation") ? operation()
        : !strcmp(call, "range") ? range()
        : !strcmp(call, "value") ? value(gawerunoa_check_value)
        : !strcmp(call, "fixed_value") ? value(gawerunoa_check_fixed_value)
        : !strcmp(call, "sized_value") ? value(gawerunoa_check_sized_value)
        : !strcmp(call, "string_value") ? string_value(gawerunoa_check_string_value)
        : !strcmp(call, "string_sized_value") ? string_value(gawerunoa_check_string_sized_value)
        : !strcmp(call, "absence") ? absence(2, any_absence)
        : !strcmp(call, "fixed_absence") ? absence(1, fixed_absence)
        : !strcmp(call, "sized_absence") ? absence(1, sized_absence)
        : !strcmp(call, "string_absence") ? absence(4, string_absence)
        : !strcmp(call, "string_sized_absence") ? absence(3, string_sized_absence)
        : INT32_MIN;
}

int main(void) {
    char *line = NULL;
    size_t room = 0;
    while (getline(&line, &room, stdin) > 0) {
        const char *call = strtok(line, " \n");
        if (!call) return 3;
        printf("%d\n", answer(call));
    }
    free(line);
    return 0;
}
