// Calls of the export `f` of a module, each on a fresh instance, by wabt's interpreter: to measure against in one run.
// usage: wabt MODULE COUNT    prints microseconds a call. The module is read and validated once, before the clock starts.
// Instances that are over are collected after every sixteen, so that memories do not pile up.
#include <cstdio>
#include <cstdlib>
#include <ctime>
#include "wabt/binary-reader.h"
#include "wabt/common.h"
#include "wabt/interp/binary-reader-interp.h"
#include "wabt/interp/interp.h"

using namespace wabt;
using namespace wabt::interp;

static void refuse(const char *why) { fprintf(stderr, "wabt: %s\n", why); exit(2); }

static double now() {
    timespec t;
    clock_gettime(CLOCK_MONOTONIC, &t);
    return t.tv_sec * 1e6 + t.tv_nsec / 1e3;
}

static Index exported(const ModuleDesc &desc) {
    for (auto &e : desc.exports)
        if (e.type.name == "f") return e.index;
    refuse("nothing is exported as f");
    return 0;
}

static void call(Store &store, const Module::Ptr &module, Index function) {
    Trap::Ptr trap;
    Instance::Ptr instance = Instance::Instantiate(store, module.ref(), {}, &trap);
    if (!instance) refuse("no instance");
    Values results;
    if (Failed(store.UnsafeGet<Func>(instance->funcs()[function])->Call(store, {}, results, &trap))) refuse("a trap");
}

int main(int count, char **words) {
    if (count != 3) refuse("usage: wabt MODULE COUNT");
    std::vector<uint8_t> bytes;
    if (Failed(ReadFile(words[1], &bytes))) refuse("the module cannot be read");
    Errors errors;
    ModuleDesc desc;
    if (Failed(ReadBinaryInterp(words[1], bytes.data(), bytes.size(), ReadBinaryOptions(), &errors, &desc))) refuse("an invalid module");
    Index function = exported(desc);
    Store store;
    Module::Ptr module = Module::New(store, desc);
    int calls = atoi(words[2]);
    double start = now();
    for (int i = 0; i < calls; i++) {
        call(store, module, function);
        if (i % 16 == 15) store.Collect();
    }
    printf("%.4f\n", (now() - start) / calls);
    return 0;
}
