// Hands a text to a plug-in that may ask for more, as examples/guests/greet.wasm does:
//
//     $ c++ -std=c++17 -o exchange examples/cpp/exchange.cpp $(pkg-config --cflags --libs gate)
//     $ ./exchange examples/guests/greet.wasm Hello 1000 name=World
//     Hello World
//
// An answer that begins with `?` is a wish: it names a key, and the plug-in is called again with the key's value. Any other is the last
// one, and is printed without its first byte. All calls together have FUEL. Ends with 1 where there is no last answer, and with 2 where
// there is no plug-in.
#include <gate.hpp>

#include <fstream>
#include <iostream>
#include <iterator>
#include <map>

// A plug-in, and the fuel that is left to it.
struct Asked {
    gate::Instance plug_in;
    gate_settings limits;

    // The one number that an export gives.
    std::uint64_t number(std::string_view name, std::initializer_list<gate_value> args) {
        const gate::Call made = plug_in.call(name, args, limits);
        limits.fuel -= made.ended.fuel;
        return made.value().bits;
    }

    std::string ask(std::string_view text) {
        const gate_value length = gate_i32(static_cast<std::int32_t>(text.size()));
        const std::uint64_t address = number("alloc", {length});
        if (address == 0) throw std::runtime_error("no room");
        plug_in.write(address, text);
        const std::uint64_t answer = number("handle", {gate_i32(static_cast<std::int32_t>(address)), length});
        return plug_in.read<std::string>(answer >> 32, static_cast<std::uint32_t>(answer));
    }

    // The last answer. There is no reset between the calls: the plug-in keeps in its memory how far it is.
    std::string exchange(std::string text, const std::map<std::string, std::string> &known) {
        std::string answer = ask(text);
        for (; !answer.empty() && answer[0] == '?'; answer = ask(text)) {
            const auto found = known.find(answer.substr(1));
            text = found == known.end() ? "" : found->second;
        }
        return answer.empty() ? answer : answer.substr(1);
    }
};

// Prints the last answer; whether there is one.
static bool print_last(Asked &asked, const std::string &text, const std::map<std::string, std::string> &known) {
    try {
        std::cout << asked.exchange(text, known) << '\n';
        return true;
    } catch (const std::runtime_error &fault) { // gate::CallError, or gate::Outside
        std::cout << fault.what() << '\n';
        return false;
    }
}

int main(int count, char **words) {
    if (count < 4) return std::cerr << "usage: exchange MODULE TEXT FUEL [KEY=VALUE ..]\n", 64;
    std::ifstream file(words[1], std::ios::binary);
    const std::vector<std::uint8_t> bytes(std::istreambuf_iterator<char>(file), {});
    const gate_settings limits = {static_cast<std::uint32_t>(std::stoul(words[3])), 1024, 32};
    std::map<std::string, std::string> known;
    for (int i = 4; i < count; i++) {
        const std::string word = words[i];
        const std::size_t end = word.find('=');
        if (end != std::string::npos) known[word.substr(0, end)] = word.substr(end + 1);
    }
    try {
        Asked asked = {gate::Module(bytes).instance(limits), limits};
        return print_last(asked, words[2], known) ? 0 : 1;
    } catch (const std::runtime_error &fault) { // gate::Refused or gate::NoInstance
        std::cout << fault.what() << '\n';
        return 2;
    }
}
