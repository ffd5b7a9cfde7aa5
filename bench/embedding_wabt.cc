// What reading and validating a module costs a host by wabt's library.
// usage: embedding_wabt MODULE    prints a name, the least and the median of 31 turns, in nanoseconds, between tabs
#include <algorithm>
#include <cstdio>
#include <cstdlib>
#include <fstream>
#include <iterator>
#include <vector>
#include <ctime>
#include "wabt/binary-reader-ir.h"
#include "wabt/binary-reader.h"
#include "wabt/error.h"
#include "wabt/ir.h"
#include "wabt/validator.h"

using namespace wabt;

static double now() {
    timespec t;
    clock_gettime(CLOCK_MONOTONIC, &t);
    return t.tv_sec * 1e9 + t.tv_nsec;
}

static bool is_valid(const std::vector<char> &bytes) {
    Features features;
    Errors errors;
    Module module;
    ReadBinaryOptions options(features, nullptr, false, true, true);
    return Succeeded(ReadBinaryIr("module", bytes.data(), bytes.size(), options, &errors, &module)) &&
           Succeeded(ValidateModule(&module, &errors, ValidateOptions(features)));
}

static double turn(const std::vector<char> &bytes, long rounds) {
    double start = now();
    for (long i = 0; i < rounds; i++)
        if (!is_valid(bytes)) exit(2);
    return (now() - start) / rounds;
}

int main(int count, char **words) {
    if (count != 2) return 2;
    std::ifstream file(words[1], std::ios::binary);
    std::vector<char> bytes((std::istreambuf_iterator<char>(file)), std::istreambuf_iterator<char>());
    long rounds = 1;
    while (turn(bytes, rounds) * rounds < 2e6) rounds *= 2;
    std::vector<double> took;
    for (int i = 0; i < 31; i++) took.push_back(turn(bytes, rounds));
    std::sort(took.begin(), took.end());
    printf("ReadBinaryIr and ValidateModule\t%.1f\t%.1f\n", took.front(), took[took.size() / 2]);
}
