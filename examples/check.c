/* Checks the demo's proof, and the same with one byte changed: prints yes, then no. */
#include <stdio.h>
#include "gawerunoa.h"

static size_t contents(const char *folder, const char *name, uint8_t *bytes, size_t room) {
    char path[4096];
    snprintf(path, sizeof path, "%s/%s.bin", folder, name);
    FILE *file = fopen(path, "rb");
    if (!file) return 0;
    size_t length = fread(bytes, 1, room, file);
    fclose(file);
    return length;
}

static const char *told(int32_t answer) {
    return answer == GAWERUNOA_YES ? "yes" : answer == GAWERUNOA_NO ? "no" : "refused, or out of memory";
}

int main(int count, char **words) {
    const char *folder = count > 1 ? words[1] : "examples/data";
    uint8_t root[32], operation[64], proof[1024];
    size_t root_length = contents(folder, "root", root, sizeof root);
    size_t operation_length = contents(folder, "operation", operation, sizeof operation);
    size_t proof_length = contents(folder, "proof", proof, sizeof proof);
    for (int changed = 0; changed < 2; changed++) {
        if (changed && proof_length) proof[proof_length / 2] ^= 1;
        puts(told(gawerunoa_check_operation(GAWERUNOA_MMR, GAWERUNOA_SHA256, 1, 3, proof, proof_length,
            operation, operation_length, root, root_length)));
    }
    return 0;
}
