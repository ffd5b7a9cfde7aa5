/// gate.h for C++17 and later: handles that free themselves, containers in place of pointers, exceptions in place of statuses.
///
///     gate::Module module(bytes);                                             // throws gate::Refused
///     gate_value sum = module.call("add", {gate_i32(40), gate_i32(2)}).value(); // sum.bits == 42; throws gate::CallError
///     gate::Instance instance = module.instance();                            // goes on from call to call; throws gate::NoInstance
///
/// Where a block of memory is refused std::bad_alloc is thrown, and where a limit or a value is out of its range std::invalid_argument.
/// gate.h says what a caller owes. A Module keeps its bytes; what remains is that it, or an Instance, is in one call at a time.
#ifndef GATE_HPP
#define GATE_HPP

#include <gate.h>
#include <initializer_list>
#include <memory>
#include <new>
#include <optional>
#include <stdexcept>
#include <string>
#include <string_view>
#include <utility>
#include <vector>

namespace gate {
/// The limits that `gate run` has by default.
inline constexpr gate_settings usual = {1000000, 1024, 256};

/// Whether items of one type may be read as those of another: both are bytes, or the types are the same.
template <class From, class To> inline constexpr bool reads = std::is_same_v<From, To> || (sizeof(From) == 1 && sizeof(To) == 1);

/// Items that others hold: a pointer and a length, or a std::vector, std::array, std::string, std::string_view or std::span.
template <class Item> struct View {
    const Item *at;
    std::size_t length;
    View(const Item *items, std::size_t count) : at(items), length(count) {}
    template <class Items, std::enable_if_t<reads<std::decay_t<decltype(*std::declval<const Items &>().data())>, Item>, int> = 0>
    View(const Items &items) : at(reinterpret_cast<const Item *>(items.data())), length(items.size()) {}
};
using Bytes = View<std::uint8_t>;
using Values = View<gate_value>;

/// The status, unless it says that there is no answer.
inline std::uint32_t answered(std::uint32_t status) {
    if (status == GATE_STATUS_NO_MEMORY) throw std::bad_alloc();
    if (status == GATE_STATUS_BAD_ARGUMENT) throw std::invalid_argument("gate: a limit or a value is out of its range");
    return status;
}

/// The verdict on a module.
inline gate_verdict check(Bytes module) {
    gate_verdict verdict = {};
    answered(gate_check(module.at, module.length, &verdict));
    return verdict;
}

/// The line of a verdict, without its newline.
inline std::string line(const gate_verdict &verdict) {
    std::uint8_t out[64];
    std::size_t length = 0;
    answered(gate_verdict_line(&verdict, out, sizeof out, &length));
    return std::string(reinterpret_cast<const char *>(out), length - 1);
}

/// Which build the library is: `gate 0.2.0 (commit 0123456789ab, rattle-kit-13f)`.
inline std::string build() {
    std::uint8_t out[64];
    std::size_t length = 0;
    answered(gate_build(out, sizeof out, &length));
    return std::string(reinterpret_cast<const char *>(out), length);
}

/// Where and why a module is refused: its numbers, and what `gate explain` prints.
struct Explanation {
    gate_explanation numbers;
    std::string text;
    /// The offset of the first byte that is refused, or where reading stopped.
    std::optional<std::uint64_t> offset() const { return numbers.from == GATE_NONE ? std::nullopt : std::optional(numbers.from); }
    /// The text of the first line with this key; empty where there is none.
    std::string line(std::string_view key) const {
        for (std::size_t at = text.find('\n'); at != std::string::npos; at = text.find('\n', at + 1)) {
            const std::string whole = text.substr(at + 1, text.find('\n', at + 1) - at - 1);
            if (whole.size() > 10 && whole.substr(0, 10) == std::string(key).append(10 - key.size(), ' ')) return whole.substr(10);
        }
        return {};
    }
    std::string because() const { return line("because"); }
    /// The verdict, and why.
    std::string sentence() const {
        const std::string why = because(), verdict = text.substr(0, text.find('\n'));
        return why.empty() ? verdict : verdict + ": " + why;
    }
};

/// Judges a module, and says of a refusal where and why.
inline Explanation explain(Bytes module) {
    Explanation found = {{}, std::string(1024, '\0')};
    answered(gate_explain(module.at, module.length, &found.numbers));
    for (std::size_t length = 0;; found.text.resize(length)) {
        auto *out = reinterpret_cast<std::uint8_t *>(found.text.data());
        const std::uint32_t status = answered(gate_explain_text(module.at, module.length, out, found.text.size(), &length));
        if (status != GATE_STATUS_SHORT_BUFFER) return found.text.resize(length), found;
    }
}

/// Judges a module, and gives what `gate exports` prints: its imports, exports and custom sections, and whether an instance starts within
/// these limits, and if not, why and where. Of a refused module it is the line of the verdict.
inline std::string exports_text(Bytes module, const gate_settings &settings = usual) {
    std::string text(1024, '\0');
    for (std::size_t length = 0;; text.resize(length)) {
        auto *out = reinterpret_cast<std::uint8_t *>(text.data());
        const std::uint32_t status = answered(gate_exports_text(module.at, module.length, &settings, out, text.size(), &length));
        if (status != GATE_STATUS_SHORT_BUFFER) return text.resize(length), text;
    }
}

/// A module is refused; what() says why in a sentence.
struct Refused : std::runtime_error {
    explicit Refused(Explanation found) : std::runtime_error(found.sentence()), explanation(std::move(found)) {}
    Explanation explanation;
    const gate_verdict &verdict() const { return explanation.numbers.verdict; }
    std::optional<std::uint64_t> offset() const { return explanation.offset(); }
    std::string because() const { return explanation.because(); }
};

/// What `gate run` prints, and its status: GATE_STATUS_OK, _MODULE_REFUSED or _CALLS_REFUSED.
struct Answer { std::uint32_t status; std::string text; };

/// An answer that the library keeps, at the place that it is given.
struct Report {
    gate_report handle = {nullptr};
    Report() = default;
    Report(Report &&other) noexcept : handle(std::exchange(other.handle, gate_report{nullptr})) {}
    ~Report() { gate_report_drop(handle); }
    Answer read(std::size_t length) const {
        std::string text(length, '\0');
        const std::uint32_t status = gate_report_read(handle, reinterpret_cast<std::uint8_t *>(text.data()), length, &length);
        return {status, std::move(text)};
    }
};

/// The answer that `ask` writes, or has kept where it is longer than the buffer.
template <class Ask> Answer answer_of(Ask ask) {
    std::string text(4096, '\0');
    std::size_t length = 0;
    Report kept;
    const std::uint32_t status = answered(ask(reinterpret_cast<std::uint8_t *>(text.data()), text.size(), &length, &kept.handle));
    if (status == GATE_STATUS_SHORT_BUFFER) return kept.read(length);
    text.resize(length);
    return {status, std::move(text)};
}

/// Judges a module, and runs the calls of a text.
inline Answer run(Bytes module, std::string_view calls, const gate_settings &settings = usual) {
    return answer_of([&, text = Bytes(calls)](std::uint8_t *out, std::size_t room, std::size_t *length, gate_report *kept) {
        return gate_run(module.at, module.length, text.at, text.length, &settings, out, room, length, kept);
    });
}

/// The types of a function's parameters and results, in their order: GATE_TYPE_I32 and the like.
struct FunctionType { std::vector<std::uint8_t> params, results; };

/// What is exported under a name; the type is that of a function.
struct Export { std::string name; gate_export item; FunctionType type; };

/// What is imported from a module under a name; the type is that of a function.
struct Import { std::string module, name; gate_import item; FunctionType type; };

/// How a call ended, as the line of a report says it, but for its values and its fuel: `trap unreachable`.
inline std::string words(const gate_call &ended) {
    static constexpr const char *ENDS[] = {"values", "trap", "out-of-fuel", "out-of-frames", "no-export", "not-a-function",
                                           "bad-arguments", "not-started", "no-memory"};
    static constexpr const char *TRAPS[] = {"unreachable", "out-of-bounds", "undefined-element", "uninitialized-element",
                                            "type-mismatch", "divide-by-zero", "integer-overflow"};
    static constexpr const char *REASONS[] = {"imports", "floats", "table-limit", "memory-limit", "element-outside", "data-outside"};
    const std::string end = ENDS[ended.end];
    if (ended.end == GATE_END_TRAP) return end + ' ' + TRAPS[ended.reason];
    if (ended.end != GATE_END_NOT_STARTED) return end;
    const bool has_place = ended.reason == GATE_ELEMENT_OUTSIDE || ended.reason == GATE_DATA_OUTSIDE;
    return end + ' ' + REASONS[ended.reason] + (has_place ? ' ' + std::to_string(ended.place) : "");
}

/// A call did not give what is asked for: one value, or none. `ended` says how it ended, and so does what(), as `trap unreachable`.
struct CallError : std::runtime_error {
    explicit CallError(const gate_call &how)
        : std::runtime_error((how.end == GATE_END_VALUES ? "not what is asked for: " : "") + words(how)), ended(how) {}
    gate_call ended;
};

/// How a call ended; with GATE_END_VALUES all results are there.
struct Call {
    gate_call ended;
    std::vector<gate_value> results;
    /// The one value of a call that gave one; throws CallError.
    gate_value value() const {
        if (results.size() != 1) throw CallError(ended);
        return results[0];
    }
    /// That a function without results came to its end; throws CallError.
    void no_value() const {
        if (ended.end != GATE_END_VALUES || !results.empty()) throw CallError(ended);
    }
};

/// There is no instance; `ended` says why: GATE_END_NOT_STARTED, GATE_END_NO_MEMORY, or how the start function ended. Of one that was not
/// started what() says more, as `gate exports` does.
struct NoInstance : std::runtime_error {
    explicit NoInstance(const gate_call &why, const std::string &place = {})
        : std::runtime_error("no instance: " + words(why) + (place.empty() ? "" : ": " + place)), ended(why) {}
    gate_call ended;
};

/// Bytes do not lie in the memory of an instance, which has `size` of them.
struct Outside : std::runtime_error {
    Outside(std::uint64_t from, std::uint64_t count, std::uint64_t of)
        : std::runtime_error(std::to_string(count) + " bytes at " + std::to_string(from) + " do not lie in a memory of " +
                            std::to_string(of) + " bytes"),
          at(from), length(count), size(of) {}
    std::uint64_t at, length, size;
};

class Instance;

/// An accepted module, which goes from thread to thread; share() gives another thread its own. One that was moved from is assigned to or
/// destroyed, and no more. The name begins large since `module` is a word of C++20.
class Module {
public:
    explicit Module(std::vector<std::uint8_t> bytes) : bytes_(std::make_shared<const std::vector<std::uint8_t>>(std::move(bytes))) {
        gate_verdict verdict = {};
        const std::uint32_t status = answered(gate_module_new(bytes_->data(), bytes_->size(), &verdict, &handle_));
        if (status != GATE_STATUS_OK) throw Refused(explain(*bytes_));
    }
    Module(Module &&other) noexcept : Module(std::move(other.bytes_), std::exchange(other.handle_, gate_module{nullptr})) {}
    Module &operator=(Module &&other) noexcept { return std::swap(bytes_, other.bytes_), std::swap(handle_, other.handle_), *this; }
    ~Module() { gate_module_drop(handle_); }
    Module share() const {
        gate_module other = {nullptr};
        answered(gate_module_share(handle_, &other));
        return Module(bytes_, other);
    }
    /// How many bytes its lists take, its own bytes apart.
    std::uint64_t size() { return gate_module_size(handle_); }
    /// What the module exports, in its order.
    std::vector<Export> exports() {
        std::vector<Export> found(gate_module_export_count(handle_));
        for (std::size_t number = 0; number < found.size(); number++) {
            answered(gate_module_export(handle_, number, &found[number].item));
            found[number].name = name_of(gate_module_export_name, number);
            found[number].type = type_of(found[number].item);
        }
        return found;
    }
    /// What the module imports, in its order. No call of a module with imports runs.
    std::vector<Import> imports() {
        std::vector<Import> found(gate_module_import_count(handle_));
        std::uint32_t function = 0;
        for (std::size_t number = 0; number < found.size(); number++) {
            Import &it = found[number];
            answered(gate_module_import(handle_, number, &it.item));
            it.module = name_of(gate_module_import_module, number);
            it.name = name_of(gate_module_import_name, number);
            if (it.item.kind == GATE_EXPORT_FUNCTION) it.type = type_of(function++, it.item.params, it.item.results);
        }
        return found;
    }
    /// Numbers by which a host may refuse the module.
    gate_measures measures() {
        gate_measures found = {};
        answered(gate_module_measures(handle_, &found));
        return found;
    }
    /// What `gate exports` prints of it within these limits. It is judged anew.
    std::string exports_text(const gate_settings &settings = usual) const { return gate::exports_text(*bytes_, settings); }
    /// The export of that name.
    std::optional<Export> find(std::string_view name) {
        gate_export item = {};
        if (!told(name, item)) return std::nullopt;
        return Export{std::string(name), item, type_of(item)};
    }
    /// Whether a call would have an instance: with GATE_END_VALUES it would; else why not. Nothing runs.
    gate_call starts(const gate_settings &settings = usual) {
        gate_call ended = {};
        answered(gate_module_starts(handle_, &settings, &ended));
        return ended;
    }
    /// Calls an export on a fresh instance.
    Call call(std::string_view name, Values args, const gate_settings &settings = usual) {
        const Bytes text(name);
        gate_export item = {};
        Call made = {{}, std::vector<gate_value>(told(name, item) ? item.results : 0)};
        answered(gate_module_call(handle_, text.at, text.length, args.at, args.length, &settings, made.results.data(),
                                  made.results.size(), &made.ended));
        made.results.resize(made.ended.results);
        return made;
    }
    Call call(std::string_view name, std::initializer_list<gate_value> args, const gate_settings &settings = usual) {
        return call(name, Values(args.begin(), args.size()), settings);
    }
    /// An instance that goes on from call to call, once its start function has run.
    Instance instance(const gate_settings &settings = usual);
    Answer run(std::string_view calls, const gate_settings &settings = usual) {
        return answer_of([&, text = Bytes(calls)](std::uint8_t *out, std::size_t room, std::size_t *length, gate_report *kept) {
            return gate_module_run(handle_, text.at, text.length, &settings, out, room, length, kept);
        });
    }

private:
    friend Instance;
    using Shared = std::shared_ptr<const std::vector<std::uint8_t>>; // as long as the last handle
    Module(Shared bytes, gate_module handle) noexcept : bytes_(std::move(bytes)), handle_(handle) {}
    bool told(std::string_view name, gate_export &item) {
        const Bytes text(name);
        return answered(gate_module_find(handle_, text.at, text.length, &item)) == GATE_STATUS_OK;
    }
    template <class Write> std::string name_of(Write write, std::uint64_t number) {
        std::string name(64, '\0');
        std::size_t length = 0;
        while (write(handle_, number, reinterpret_cast<std::uint8_t *>(name.data()), name.size(), &length) == GATE_STATUS_SHORT_BUFFER)
            name.resize(length);
        name.resize(length);
        return name;
    }
    FunctionType type_of(const gate_export &item) {
        return item.kind == GATE_EXPORT_FUNCTION ? type_of(item.index, item.params, item.results) : FunctionType{};
    }
    FunctionType type_of(std::uint32_t function, std::uint32_t params, std::uint32_t results) {
        FunctionType type = {std::vector<std::uint8_t>(params), std::vector<std::uint8_t>(results)};
        answered(gate_module_types(handle_, function, type.params.data(), params, type.results.data(), results));
        return type;
    }
    Shared bytes_;
    gate_module handle_ = {nullptr};
};

/// A function of the instances of a module, from Instance::function.
struct Function {
    std::uint64_t number;
    std::uint32_t results;
};

/// An instance of a module, which may go before it: what one call leaves in memory, globals and table, the next one finds. It goes from
/// thread to thread. One that was moved from is assigned to or destroyed, and no more. After a reset that threw NoInstance each use but
/// another reset throws it too.
class Instance {
public:
    /// Makes it, and runs the start function; throws NoInstance. It has these settings for each call that has none of its own.
    Instance(const Module &module, const gate_settings &settings) : module_(module.share()), settings_(settings) {
        tell(gate_instance_new(module_.handle_, &settings_, &handle_, &started_));
    }
    Instance(Instance &&other) noexcept
        : module_(std::move(other.module_)), settings_(other.settings_), started_(other.started_),
          handle_(std::exchange(other.handle_, gate_instance{nullptr})) {}
    Instance &operator=(Instance &&other) noexcept {
        std::swap(module_, other.module_), std::swap(settings_, other.settings_);
        return std::swap(started_, other.started_), std::swap(handle_, other.handle_), *this;
    }
    ~Instance() { gate_instance_drop(handle_); }
    /// How making it, or its last reset, ended, with the fuel of the start function.
    const gate_call &started() const noexcept { return started_; }
    /// Calls an export on this instance as it is. It goes on after a trap, and where fuel or frames ran out; after GATE_END_NO_MEMORY
    /// each call ends so, until a reset.
    Call call(std::string_view name, Values args, const gate_settings &settings) {
        const Bytes text(name);
        gate_export item = {};
        Call made = {{}, std::vector<gate_value>(module_.told(name, item) ? item.results : 0)};
        live(gate_instance_call(handle_, text.at, text.length, args.at, args.length, &settings, made.results.data(),
                                made.results.size(), &made.ended));
        made.results.resize(made.ended.results);
        return made;
    }
    Call call(std::string_view name, Values args) { return call(name, args, settings_); }
    Call call(std::string_view name, std::initializer_list<gate_value> args) { return call(name, args, settings_); }
    Call call(std::string_view name, std::initializer_list<gate_value> args, const gate_settings &settings) {
        return call(name, Values(args.begin(), args.size()), settings);
    }
    /// The function that is exported under that name, for who calls it often: instance.call(function, {..}).
    std::optional<Function> function(std::string_view name) {
        const Bytes text(name);
        gate_export item = {};
        Function found = {};
        if (!module_.told(name, item) || item.kind != GATE_EXPORT_FUNCTION) return std::nullopt;
        answered(gate_instance_find(handle_, text.at, text.length, &found.number));
        return found.results = item.results, found;
    }
    Call call(Function function, Values args, const gate_settings &settings) {
        Call made = {{}, std::vector<gate_value>(function.results)};
        live(gate_instance_call_at(handle_, function.number, args.at, args.length, &settings, made.results.data(),
                                   made.results.size(), &made.ended));
        return made.results.resize(made.ended.results), made;
    }
    Call call(Function function, std::initializer_list<gate_value> args) {
        return call(function, Values(args.begin(), args.size()), settings_);
    }
    /// As call, and after each end but values a reset, which a plug-in of a compiler wants: a trap leaves its stack pointer where it was.
    Call call_or_reset(std::string_view name, Values args, const gate_settings &settings) {
        Call made = call(name, args, settings);
        if (made.ended.end != GATE_END_VALUES) reset();
        return made;
    }
    Call call_or_reset(std::string_view name, Values args) { return call_or_reset(name, args, settings_); }
    Call call_or_reset(std::string_view name, std::initializer_list<gate_value> args) { return call_or_reset(name, args, settings_); }
    Call call_or_reset(std::string_view name, std::initializer_list<gate_value> args, const gate_settings &settings) {
        return call_or_reset(name, Values(args.begin(), args.size()), settings);
    }
    /// How many bytes its memory has; 0 where it has none.
    std::uint64_t memory_size() {
        std::uint64_t size = 0;
        return live(gate_instance_memory_size(handle_, &size)), size;
    }
    /// So many bytes of its memory from place `at` on, as a std::vector or, by read<std::string>, as text; throws Outside.
    template <class Items = std::vector<std::uint8_t>> Items read(std::uint64_t at, std::uint64_t length) {
        const std::uint64_t size = memory_size();
        Items items;
        items.resize(static_cast<std::size_t>(length <= size ? length : 0));
        auto *out = reinterpret_cast<std::uint8_t *>(items.data());
        if (length > size || gate_instance_read(handle_, at, out, items.size()) != GATE_STATUS_OK) throw Outside(at, length, size);
        return items;
    }
    /// Writes bytes to its memory from place `at` on; where they would not lie in it, writes nothing and throws Outside.
    void write(std::uint64_t at, Bytes bytes) {
        const std::uint64_t size = memory_size();
        if (gate_instance_write(handle_, at, bytes.at, bytes.length) != GATE_STATUS_OK) throw Outside(at, bytes.length, size);
    }
    /// The value of the global that is exported under that name.
    std::optional<gate_value> global(std::string_view name) {
        const Bytes text(name);
        gate_value value = {};
        if (live(gate_instance_global(handle_, text.at, text.length, &value)) != GATE_STATUS_OK) return std::nullopt;
        return value;
    }
    /// Makes it anew, as it was made. Throws NoInstance where there is none then.
    void reset() { tell(gate_instance_reset(handle_, &started_)); }

private:
    /// The first cause of a refused start.
    std::string place() const {
        if (started_.end != GATE_END_NOT_STARTED) return {};
        const std::string text = module_.exports_text(settings_);
        const std::size_t colon = text.find(": ", text.rfind('\n', text.size() - 2) + 1);
        return colon == std::string::npos ? std::string() : text.substr(colon + 2, text.size() - colon - 3);
    }
    void tell(std::uint32_t status) {
        if (answered(status) == GATE_STATUS_NO_INSTANCE) throw NoInstance(started_, place());
    }
    std::uint32_t live(std::uint32_t status) const {
        if (started_.end != GATE_END_VALUES) throw NoInstance(started_);
        return answered(status);
    }
    Module module_; // of its own, for the types of exports
    gate_settings settings_;
    gate_call started_ = {};
    gate_instance handle_ = {nullptr};
};

inline Instance Module::instance(const gate_settings &settings) { return Instance(*this, settings); }
} // namespace gate
#endif
