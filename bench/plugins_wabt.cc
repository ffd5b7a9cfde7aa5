// What plugins.c does, by wabt's interpreter, which has no reset: kept and fresh.
// usage: plugins_wabt MODULE WAY COUNT
// Instances that are over are collected after every sixteen, so that memories do not pile up.
#include <cstdio>
#include <cstdlib>
#include <cstring>
#include "wabt/binary-reader.h"
#include "wabt/common.h"
#include "wabt/interp/binary-reader-interp.h"
#include "wabt/interp/interp.h"

using namespace wabt;
using namespace wabt::interp;

static const u32 LENGTH = 100;
static const long KEPT = 1000;

static void refuse(const char *why) {
    fprintf(stderr, "plugins_wabt: %s\n", why);
    exit(2);
}

struct Host {
    Store store;
    ModuleDesc desc;
    Module::Ptr module;
    Instance::Ptr instance;
    Index alloc, handle;
    u32 at;
    u8 in[LENGTH], out[LENGTH];
    long begun = 0;

    Index exported(const char *name) {
        for (auto &e : desc.exports)
            if (e.type.name == name) return e.index;
        refuse("an export is missing");
        return 0;
    }

    Value call(Index function, const Values &args) {
        Trap::Ptr trap;
        Values results;
        if (Failed(store.UnsafeGet<Func>(instance->funcs()[function])->Call(store, args, results, &trap))) refuse("a trap");
        return results[0];
    }

    void ask_for_room() { at = call(alloc, {Value::Make(LENGTH)}).Get<u32>(); }

    void filter() {
        auto memory = store.UnsafeGet<Memory>(instance->memories()[0]);
        if (!memory->IsValidAccess(at, 0, LENGTH)) refuse("the text does not fit");
        memcpy(memory->UnsafeData() + at, in, LENGTH);
        u64 where = call(handle, {Value::Make(at), Value::Make(LENGTH)}).Get<u64>();
        if ((u32)where != LENGTH || !memory->IsValidAccess(where >> 32, 0, LENGTH)) refuse("there is no answer");
        memcpy(out, memory->UnsafeData() + (where >> 32), LENGTH);
    }

    void begin() {
        Trap::Ptr trap;
        instance = Instance::Instantiate(store, module.ref(), {}, &trap);
        if (!instance) refuse("no instance");
        if (++begun % 16 == 0) store.Collect();
        ask_for_room();
    }

    void one(char way, long number) {
        in[0] = (u8)('a' + number % 26);
        if (way != 'k' || number % KEPT == 0) begin();
        filter();
        if (out[0] != 'A' + number % 26 || out[LENGTH - 1] != 'Z') refuse("another answer");
    }
};

int main(int count, char **words) {
    if (count != 4) refuse("usage: plugins_wabt MODULE WAY COUNT");
    std::vector<uint8_t> bytes;
    if (Failed(ReadFile(words[1], &bytes))) refuse("the module cannot be read");
    Host it;
    Errors errors;
    Result read = ReadBinaryInterp(words[1], bytes.data(), bytes.size(), ReadBinaryOptions(), &errors, &it.desc);
    if (Failed(read)) refuse("the module is refused");
    it.module = Module::New(it.store, it.desc);
    it.alloc = it.exported("alloc");
    it.handle = it.exported("handle");
    memset(it.in, 'z', LENGTH);
    for (long i = 0; i < atol(words[3]); i++) it.one(words[2][0], i);
    return 0;
}
