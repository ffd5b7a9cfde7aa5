// Hands texts to a plug-in, and prints what it gives back:
//
//     $ c++ -std=c++17 -o plugin_host examples/cpp/plugin_host.cpp $(pkg-config --cflags --libs gate)
//     $ ./plugin_host examples/guests/upper.wasm hello
//     HELLO
//
// The plug-in keeps the convention of docs/GUESTS.md, alloc and handle, and nothing that it gives is believed. Ends with 1 where a text has
// no answer, and with 2 where there is no plug-in.
#include <gate.hpp>

#include <fstream>
#include <iostream>
#include <iterator>

// What the plug-in answers to a text; nothing where it has no answer.
static std::optional<std::string> ask(gate::Instance &plug_in, std::string_view text) {
    const gate_value length = gate_i32(static_cast<std::int32_t>(text.size()));
    const gate_value address = plug_in.call("alloc", {length}).value();
    if (address.bits == 0) throw std::runtime_error("no room");
    plug_in.write(address.bits, text);
    const std::uint64_t answer = plug_in.call("handle", {address, length}).value().bits;
    if (answer == UINT64_MAX) return std::nullopt;
    return plug_in.read<std::string>(answer >> 32, static_cast<std::uint32_t>(answer));
}

// Prints the answer to a text; whether there is one.
static bool print_answer(gate::Instance &plug_in, std::string_view text) {
    try {
        const std::optional<std::string> answer = ask(plug_in, text);
        std::cout << answer.value_or("no answer") << '\n';
        return answer.has_value();
    } catch (const std::runtime_error &fault) { // gate::CallError, or gate::Outside
        std::cout << "fault: " << fault.what() << '\n';
        return false;
    }
}

int main(int count, char **words) {
    std::ifstream file(count > 1 ? words[1] : "", std::ios::binary);
    const std::vector<std::uint8_t> bytes(std::istreambuf_iterator<char>(file), {});
    try {
        gate::Instance plug_in = gate::Module(bytes).instance({1000000, 1024, 32});
        bool all = true;
        for (int i = 2; i < count; i++) {
            all &= print_answer(plug_in, words[i]);
            plug_in.reset(); // with all its room, whatever the text did to it
        }
        return all ? 0 : 1;
    } catch (const std::runtime_error &fault) { // gate::Refused or gate::NoInstance
        std::cout << fault.what() << '\n';
        return 2;
    }
}
