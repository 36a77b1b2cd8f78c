// Checks the demo's proof, and the same with one byte changed: prints yes, then no.
#include <cstdint>
#include <fstream>
#include <iostream>
#include <iterator>
#include <string>
#include <vector>
#include "gawerunoa.h"

using Bytes = std::vector<std::uint8_t>;

static Bytes contents(const std::string &path) {
    std::ifstream file(path, std::ios::binary);
    return Bytes(std::istreambuf_iterator<char>(file), std::istreambuf_iterator<char>());
}

static const char *told(std::int32_t answer) {
    return answer == GAWERUNOA_YES ? "yes" : answer == GAWERUNOA_NO ? "no" : "refused, or out of memory";
}

static std::int32_t check(std::uint64_t location, const Bytes &proof, const Bytes &operation, const Bytes &root) {
    return gawerunoa_check_operation(GAWERUNOA_MMR, GAWERUNOA_SHA256, 1, location, proof.data(), proof.size(),
        operation.data(), operation.size(), root.data(), root.size());
}

int main(int count, char **words) {
    const std::string folder = count > 1 ? words[1] : "examples/data";
    const Bytes root = contents(folder + "/root.bin");
    const Bytes operation = contents(folder + "/operation.bin");
    Bytes proof = contents(folder + "/proof.bin");
    std::cout << told(check(3, proof, operation, root)) << "\n";
    if (!proof.empty()) proof[proof.size() / 2] ^= 1;
    std::cout << told(check(3, proof, operation, root)) << "\n";
}
