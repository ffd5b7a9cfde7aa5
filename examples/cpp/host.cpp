// Calls an export of a module with numbers of 32 bits:
//
//     $ c++ -std=c++17 -o host examples/cpp/host.cpp $(pkg-config --cflags --libs gate)
//     $ ./host examples/add.wasm add 40 2
//     values 42 fuel 1
#include <gate.hpp>

#include <cstdlib>
#include <fstream>
#include <iostream>
#include <iterator>

int main(int count, char **words) {
    std::ifstream file(count > 2 ? words[1] : "", std::ios::binary);
    if (!file) {
        std::cerr << "usage: host MODULE NAME [NUMBER ..]\n";
        return 64;
    }
    const std::vector<std::uint8_t> bytes(std::istreambuf_iterator<char>(file), {});
    try {
        gate::Module module(bytes);
        std::vector<gate_value> args;
        for (int i = 3; i < count; i++) args.push_back(gate_i32(std::atoi(words[i])));
        const gate::Call call = module.call(words[2], args);
        if (call.ended.end != GATE_END_VALUES) {
            std::cout << "end " << call.ended.end << '\n';
            return 1;
        }
        std::cout << "values";
        for (const gate_value &result : call.results) std::cout << ' ' << static_cast<std::int32_t>(result.bits);
        std::cout << " fuel " << call.ended.fuel << '\n';
    } catch (const gate::Refused &refused) {
        std::cout << refused.what() << '\n';
        return GATE_STATUS_MODULE_REFUSED;
    }
}
