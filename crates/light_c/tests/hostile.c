/*
 * Calls the library so many times with arguments that nobody means: numbers at the edges, byte strings that are null, empty, at odd
 * addresses, random, or a right proof with bytes changed, cut off or added. Each is asked by one of the twelve calls, and by that of the
 * four over a struct, which must answer the same; one in eight structs is none, two, or has a kind or an encoding that there is
 * not, which must be refused as such. Every answer must be one that the header names for the call; a yes must be to the right proof, unchanged, but for the key where a key has no value: one proof is of many keys. Byte
 * strings end where their memory does, so that a read past one is a fault of the address sanitizer. Prints how often each answer came.
 *
 *     hostile CALLS SEED FOLDER HASH     FOLDER has the files CALL_STRING.bin with the strings of a right proof for each call that
 *                                          stands below, but for that of ranges, over chunks of a byte and the digest function
 *                                          HASH, and CALL_family.bin with its family as a byte: of an operation at location 3,
 *                                          and of keys and values; values of one size have 8 bytes
 */
#include <stdio.h>
#include <stdlib.h>
#include <string.h>
#include "gawerunoa.h"

enum { ROOM = 4096, STRINGS = 4, LENGTHS = 8, LIMITS = 5, LEAST = -10 };

/* What the answer is to be: a yes or not, or either. */
enum wanted { OTHER, YES, EITHER };

static uint64_t state;

/* How many structs were refused. */
static size_t seen_refusals;

static uint64_t random64(void) {
    state ^= state << 13;
    state ^= state >> 7;
    state ^= state << 17;
    return state * UINT64_C(0x2545F4914F6CDD1D);
}

static size_t below(size_t bound) {
    return (size_t)((random64() >> 11) % bound);
}

struct bytes {
    uint8_t *at;
    size_t length;
    void *block;
};

enum call { OPERATION, VALUE, FIXED_VALUE, SIZED_VALUE, STRING_VALUE, STRING_SIZED_VALUE, ABSENCE, FIXED_ABSENCE, SIZED_ABSENCE,
    STRING_ABSENCE, STRING_SIZED_ABSENCE, RIGHT, RANGE = RIGHT, CALLS };

/* A right proof for a call: the root, the proof, and what it is asked of; the key of what has no value may be another one. */
struct right {
    const char *call;
    const char *names[STRINGS];
    uint32_t family;
    struct bytes of[STRINGS];
};

#define STRINGS_OF_VALUE {"root", "proof", "key", "value"}
#define STRINGS_OF_ABSENCE {"root", "proof", "key", NULL}

static struct right rights[RIGHT] = {
    {.call = "operation", .names = {"root", "proof", "operation", NULL}},
    {.call = "value", .names = STRINGS_OF_VALUE},
    {.call = "fixed_value", .names = STRINGS_OF_VALUE},
    {.call = "sized_value", .names = STRINGS_OF_VALUE},
    {.call = "string_value", .names = STRINGS_OF_VALUE},
    {.call = "string_sized_value", .names = STRINGS_OF_VALUE},
    {.call = "absence", .names = STRINGS_OF_ABSENCE},
    {.call = "fixed_absence", .names = STRINGS_OF_ABSENCE},
    {.call = "sized_absence", .names = STRINGS_OF_ABSENCE},
    {.call = "string_absence", .names = STRINGS_OF_ABSENCE},
    {.call = "string_sized_absence", .names = STRINGS_OF_ABSENCE},
};

static uint32_t right_hash;

static struct bytes contents(const char *folder, const char *call, const char *name) {
    char path[4096];
    struct bytes it = {malloc(ROOM), 0, NULL};
    snprintf(path, sizeof path, "%s/%s_%s.bin", folder, call, name);
    FILE *file = fopen(path, "rb");
    if (!it.at || !file) exit(3);
    it.length = fread(it.at, 1, ROOM, file);
    fclose(file);
    return it;
}

static void read_right(const char *folder, struct right *right) {
    struct bytes family = contents(folder, right->call, "family");
    right->family = family.at[0];
    free(family.at);
    for (size_t i = 0; i < STRINGS && right->names[i]; i++) right->of[i] = contents(folder, right->call, right->names[i]);
}

/* A string of these bytes, at any alignment, that ends where its block ends; null or not where it is empty. */
static struct bytes placed(const uint8_t *from, size_t length) {
    struct bytes it = {NULL, length, NULL};
    size_t offset = below(16);
    if (length == 0 && below(2)) return it;
    it.block = malloc(offset + length + (offset + length == 0));
    if (!it.block) exit(4);
    it.at = (uint8_t *)it.block + offset;
    if (length) memcpy(it.at, from, length);
    return it;
}

static size_t filled(uint8_t *bytes, size_t most) {
    size_t length = below(most + 1);
    for (size_t i = 0; i < length; i++) bytes[i] = (uint8_t)(below(3) ? random64() : below(4));
    return length;
}

static struct bytes random_bytes(size_t most) {
    uint8_t bytes[ROOM];
    size_t length = filled(bytes, most);
    return placed(bytes, length);
}

/* The right string, or one near it, or none like it. `wanted` is set to `other` where it is another one. */
static struct bytes string(const struct bytes *right, enum wanted other, enum wanted *wanted) {
    uint8_t bytes[ROOM];
    size_t length = right->length;
    memcpy(bytes, right->at, length);
    switch (below(8)) {
    case 0:
        for (size_t i = 1 + below(3); i > 0; i--) bytes[below(length)] ^= (uint8_t)(1 + below(255));
        break;
    case 1:
        length = below(length);
        break;
    case 2:
        bytes[length++] = (uint8_t)random64();
        break;
    case 3:
        length = filled(bytes, 300);
        break;
    default:
        break;
    }
    int is_right = length == right->length && !memcmp(bytes, right->at, length);
    if (!is_right && *wanted != OTHER) *wanted = other;
    return placed(bytes, length);
}

static size_t number(size_t usual) {
    static const size_t edges[] = {0, 1, 2, 3, 4, 7, 8, 20, 31, 32, 33, 64, 128, 255, (size_t)1 << 59, (size_t)1 << 60,
        (size_t)1 << 62, (size_t)1 << 63, SIZE_MAX - 1, SIZE_MAX};
    size_t choice = below(8);
    if (choice == 0) return (size_t)random64();
    return choice < 3 ? edges[below(sizeof edges / sizeof *edges)] : usual;
}

static uint32_t small(uint32_t usual) {
    return (uint32_t)(below(16) ? usual : number(usual));
}

static size_t lengths(size_t total, size_t *into) {
    size_t count = below(LENGTHS + 1), rest = total;
    for (size_t i = 0; i < count; i++) {
        into[i] = i + 1 == count && below(8) ? rest : below(16) ? below(rest + 1) : number(1);
        rest -= into[i] <= rest ? into[i] : rest;
    }
    return count;
}

/* What is agreed: usually what the right proofs are of. */
struct agreed {
    uint32_t family, hash;
    size_t chunk;
};

/* The struct of what is agreed, and how many there are. `refusal` is what must be answered of the struct alone, or 0. */
struct over {
    struct gawerunoa_agreed structs[2];
    size_t count;
    int32_t refusal;
};

static struct over over(struct agreed it, uint32_t keys, uint32_t values, const size_t *limits) {
    struct over over = {.structs = {{it.family, it.hash, keys, values, it.chunk, limits[0], limits[1], limits[2], limits[3], limits[4]}},
        .count = 1};
    switch (below(32)) {
    case 0:
        over.count = 0;
        over.refusal = GAWERUNOA_OTHER_AGREED;
        break;
    case 1:
        over.count = 2;
        over.structs[1] = over.structs[0];
        over.refusal = GAWERUNOA_OTHER_AGREED;
        break;
    case 2:
        over.structs[0].keys = 2 + (uint32_t)below(UINT32_MAX - 1);
        over.refusal = GAWERUNOA_OTHER_KIND;
        break;
    case 3:
        over.structs[0].values = 3 + (uint32_t)below(UINT32_MAX - 2);
        over.refusal = GAWERUNOA_OTHER_ENCODING;
        break;
    default:
        break;
    }
    return over;
}

static const struct gawerunoa_agreed *at(const struct over *over) {
    return over->count ? over->structs : NULL;
}

/* The answer of one of the twelve, which that over a struct is to be too, but where the struct is refused. */
static int32_t both(int32_t one, const struct over *over, int32_t other) {
    if (other != (over->refusal ? over->refusal : one)) {
        printf("answered %d, and over a struct %d\n", one, other);
        exit(1);
    }
    seen_refusals += over->refusal != 0;
    return one;
}

static int32_t operation(struct agreed it, const struct bytes *of, enum wanted *wanted) {
    uint64_t location = number(3);
    if (location != 3) *wanted = OTHER;
    size_t limits[LIMITS] = {number(0), number(0), number(0), number(0), number(0)};
    struct over o = over(it, (uint32_t)below(2), (uint32_t)below(2), limits);
    return both(gawerunoa_check_operation(it.family, it.hash, it.chunk, location, of[1].at, of[1].length, of[2].at, of[2].length,
        of[0].at, of[0].length), &o, gawerunoa_ask_operation(at(&o), o.count, location, of[1].at, of[1].length,
        of[2].at, of[2].length, of[0].at, of[0].length));
}

static int32_t range(struct agreed it, const struct bytes *of, enum wanted *wanted) {
    size_t first[LENGTHS], second[LENGTHS];
    struct bytes chunks = random_bytes(64);
    size_t firsts = lengths(of[2].length, first), seconds = lengths(chunks.length, second);
    *wanted = OTHER;
    size_t most = number(128), start = number(3), limits[LIMITS] = {number(0), number(0), number(0), number(0), most};
    struct over o = over(it, (uint32_t)below(2), (uint32_t)below(2), limits);
    int32_t answer = both(gawerunoa_check_range(it.family, it.hash, it.chunk, most, start, of[1].at, of[1].length,
        of[2].at, of[2].length, firsts ? first : NULL, firsts, chunks.at, chunks.length, seconds ? second : NULL, seconds,
        of[0].at, of[0].length), &o, gawerunoa_ask_range(at(&o), o.count, start, of[1].at, of[1].length,
        of[2].at, of[2].length, firsts ? first : NULL, firsts, chunks.at, chunks.length, seconds ? second : NULL, seconds,
        of[0].at, of[0].length));
    free(chunks.block);
    return answer;
}

static int32_t value_over(const struct over *o, const struct bytes *of) {
    return gawerunoa_ask_value(at(o), o->count, of[1].at, of[1].length, of[2].at, of[2].length, of[3].at, of[3].length,
        of[0].at, of[0].length);
}

static int32_t absence_over(const struct over *o, const struct bytes *of) {
    return gawerunoa_ask_absence(at(o), o->count, of[1].at, of[1].length, of[2].at, of[2].length, of[0].at, of[0].length);
}

static int32_t value(enum call call, struct agreed it, const struct bytes *of) {
    size_t size = call == VALUE ? number(0) : of[3].length, limits[LIMITS] = {number(0), number(0), size, size, number(0)};
    uint32_t values = call == VALUE ? GAWERUNOA_VARIABLE : call == FIXED_VALUE ? GAWERUNOA_FIXED : GAWERUNOA_SIZED;
    struct over o = over(it, GAWERUNOA_ONE_SIZE, values, limits);
    return both((call == VALUE ? gawerunoa_check_value
        : call == FIXED_VALUE ? gawerunoa_check_fixed_value
        : gawerunoa_check_sized_value)(it.family, it.hash, it.chunk, of[1].at, of[1].length, of[2].at, of[2].length,
        of[3].at, of[3].length, of[0].at, of[0].length), &o, value_over(&o, of));
}

/* Bounds of lengths, usually those that admit all. With others a right proof may be a no. */
struct bounds {
    size_t least, most;
};

static struct bounds bounds(enum wanted *wanted) {
    struct bounds it = {number(0), number(SIZE_MAX)};
    if ((it.least || it.most != SIZE_MAX) && *wanted == YES) *wanted = EITHER;
    return it;
}

static int32_t string_value(enum call call, struct agreed it, const struct bytes *of, enum wanted *wanted) {
    struct bounds keys = bounds(wanted);
    size_t size = call == STRING_VALUE ? number(0) : of[3].length, limits[LIMITS] = {keys.least, keys.most, size, size, number(0)};
    struct over o = over(it, GAWERUNOA_STRINGS, call == STRING_VALUE ? GAWERUNOA_VARIABLE : GAWERUNOA_SIZED, limits);
    return both((call == STRING_VALUE ? gawerunoa_check_string_value : gawerunoa_check_string_sized_value)(it.family, it.hash, it.chunk,
        keys.least, keys.most, of[1].at, of[1].length, of[2].at, of[2].length, of[3].at, of[3].length, of[0].at, of[0].length),
        &o, value_over(&o, of));
}

static int32_t absence(struct agreed it, const struct bytes *of, enum wanted *wanted) {
    struct bounds values = bounds(wanted);
    size_t limits[LIMITS] = {number(0), number(0), values.least, values.most, number(0)};
    struct over o = over(it, GAWERUNOA_ONE_SIZE, GAWERUNOA_VARIABLE, limits);
    return both(gawerunoa_check_absence(it.family, it.hash, it.chunk, values.least, values.most, of[1].at, of[1].length,
        of[2].at, of[2].length, of[0].at, of[0].length), &o, absence_over(&o, of));
}

static int32_t string_absence(struct agreed it, const struct bytes *of, enum wanted *wanted) {
    struct bounds keys = bounds(wanted), values = bounds(wanted);
    size_t limits[LIMITS] = {keys.least, keys.most, values.least, values.most, number(0)};
    struct over o = over(it, GAWERUNOA_STRINGS, GAWERUNOA_VARIABLE, limits);
    return both(gawerunoa_check_string_absence(it.family, it.hash, it.chunk, keys.least, keys.most, values.least, values.most,
        of[1].at, of[1].length, of[2].at, of[2].length, of[0].at, of[0].length), &o, absence_over(&o, of));
}

/* The size of all values, usually that of the right proofs. With another one a right proof of a commit may be a yes. */
static size_t size_of_values(enum wanted other, enum wanted *wanted) {
    size_t size = number(8);
    if (size != 8 && *wanted != OTHER) *wanted = other;
    return size;
}

static int32_t sized_absence(enum call call, struct agreed it, const struct bytes *of, enum wanted *wanted) {
    size_t size = size_of_values(call == FIXED_ABSENCE ? OTHER : EITHER, wanted);
    size_t limits[LIMITS] = {number(0), number(0), size, size, number(0)};
    struct over o = over(it, GAWERUNOA_ONE_SIZE, call == FIXED_ABSENCE ? GAWERUNOA_FIXED : GAWERUNOA_SIZED, limits);
    return both((call == FIXED_ABSENCE ? gawerunoa_check_fixed_absence : gawerunoa_check_sized_absence)(it.family, it.hash, it.chunk,
        size, of[1].at, of[1].length, of[2].at, of[2].length, of[0].at, of[0].length), &o, absence_over(&o, of));
}

static int32_t string_sized_absence(struct agreed it, const struct bytes *of, enum wanted *wanted) {
    struct bounds keys = bounds(wanted);
    size_t size = size_of_values(EITHER, wanted), limits[LIMITS] = {keys.least, keys.most, size, size, number(0)};
    struct over o = over(it, GAWERUNOA_STRINGS, GAWERUNOA_SIZED, limits);
    return both(gawerunoa_check_string_sized_absence(it.family, it.hash, it.chunk, keys.least, keys.most, size,
        of[1].at, of[1].length, of[2].at, of[2].length, of[0].at, of[0].length), &o, absence_over(&o, of));
}

static int32_t answer(enum call call, struct agreed it, const struct bytes *of, enum wanted *wanted) {
    switch (call) {
    case OPERATION:
        return operation(it, of, wanted);
    case RANGE:
        return range(it, of, wanted);
    case STRING_VALUE:
    case STRING_SIZED_VALUE:
        return string_value(call, it, of, wanted);
    case ABSENCE:
        return absence(it, of, wanted);
    case FIXED_ABSENCE:
    case SIZED_ABSENCE:
        return sized_absence(call, it, of, wanted);
    case STRING_ABSENCE:
        return string_absence(it, of, wanted);
    case STRING_SIZED_ABSENCE:
        return string_sized_absence(it, of, wanted);
    default:
        return value(call, it, of);
    }
}

static int32_t call(enum wanted *wanted) {
    struct agreed it = {small((uint32_t)below(2)), small(right_hash), number(1)};
    struct bytes of[STRINGS] = {{NULL, 0, NULL}};
    enum call which = (enum call)below(CALLS);
    const struct right *right = &rights[which == RANGE ? OPERATION : which];
    int is_absence = which >= ABSENCE && which < RIGHT;
    *wanted = it.family == right->family && it.hash == right_hash && it.chunk == 1 ? YES : OTHER;
    for (int i = 0; i < STRINGS && right->names[i]; i++)
        of[i] = string(&right->of[i], is_absence && i == 2 ? EITHER : OTHER, wanted);
    int32_t said = answer(which, it, of, wanted);
    for (size_t i = 0; i < STRINGS; i++) free(of[i].block);
    return said;
}

int main(int count, char **words) {
    if (count != 5) return 2;
    size_t calls = strtoull(words[1], NULL, 10), seen[GAWERUNOA_YES - LEAST + 1] = {0};
    state = strtoull(words[2], NULL, 10) * 2 + 1;
    for (size_t i = 0; i < RIGHT; i++) read_right(words[3], &rights[i]);
    right_hash = (uint32_t)strtoul(words[4], NULL, 10);
    for (size_t i = 0; i < calls; i++) {
        enum wanted wanted;
        int32_t answer = call(&wanted);
        if (answer < LEAST || answer > GAWERUNOA_YES || (wanted != EITHER && (answer == GAWERUNOA_YES) != (wanted == YES))) {
            printf("call %zu was answered %d\n", i, answer);
            return 1;
        }
        seen[answer - LEAST]++;
    }
    for (int answer = LEAST; answer <= GAWERUNOA_YES; answer++)
        if (seen[answer - LEAST]) printf("%d: %zu\n", answer, seen[answer - LEAST]);
    printf("structs refused: %zu\n", seen_refusals);
    for (size_t i = 0; i < RIGHT; i++)
        for (size_t k = 0; k < STRINGS; k++) free(rights[i].of[k].at);
    return 0;
}
