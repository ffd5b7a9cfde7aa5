/* See guest.h. */
#include "guest.h"

enum { MOST_FUEL = 20000 };

static const uint8_t *name_in(play *it, const char *name) {
    const size_t length = strlen(name);
    uint8_t *at = buffer(it, NAME, length);
    if (length) memcpy(at, name, length);
    return at;
}

static const gate_settings *settings_in(play *it, gate_settings settings) {
    gate_settings *at = buffer(it, SETTINGS, sizeof *at);
    *at = settings;
    return at;
}

static gate_call *ended_in(play *it) { return buffer(it, ENDED, sizeof(gate_call)); }

/* The library is called: what it asks for from here on is counted. */
static void enter(void) {
    asks.was_refused = false;
    asks.is_in_call = true;
}

static uint32_t answered(uint32_t status) {
    asks.is_in_call = false;
    return status;
}

static gate_settings any_settings(play *it) {
    static const uint32_t fuels[] = { 0, 1, 2, 3, 10, 100, 1000, MOST_FUEL }, frames[] = { 1, 2, 3, 50, 1024, 4096 };
    static const uint32_t pages[] = { 0, 1, 2, 3, 256, 1024 };
    return (gate_settings){ fuels[below(it, 8)], frames[below(it, 6)], pages[below(it, 6)] };
}

static gate_settings bad_settings(play *it) {
    static const gate_settings bad[] = { { 1000000001, 1, 0 }, { 0, 0, 1 }, { 0, 4097, 1 }, { 0, 1, 1025 }, { UINT32_MAX, 1, 0 } };
    return bad[below(it, 5)];
}

/* Near the beginning, near the end, far away, or anywhere. */
static uint64_t any_place(play *it, uint64_t size) {
    switch (below(it, 8)) {
    case 0: return below(it, 32);
    case 1: return size - below(it, 32) + below(it, 16);
    case 2: return below(it, 2) ? UINT32_MAX - below(it, 16) : UINT64_MAX - below(it, 16);
    case 3: return PAGE - below(it, 16) + below(it, 16);
    case 4: return 4096 + below(it, 32);
    case 5: return 12280 + below(it, 16);
    default: return below(it, size + 1);
    }
}

static size_t any_length(play *it, uint64_t size) {
    switch (below(it, 8)) {
    case 0: return 0;
    case 1: return below(it, size + 2);
    case 2: return size;
    default: return below(it, 70);
    }
}

static void has_global(play *it, guest *on, const global *named, uint64_t bits) {
    gate_value *value = buffer(it, VALUE, sizeof *value);
    const uint8_t *name = name_in(it, named->name);
    enter();
    const uint32_t status = answered(gate_instance_global(on->instance, name, strlen(named->name), value));
    if (on->state == GONE) HOLDS(it, status == GATE_NO_GLOBAL && is_untouched(value, sizeof *value));
    else HOLDS(it, status == GATE_OK && value->width == named->width && value->bits == bits);
}

static void has_no_global(play *it, guest *on) {
    static const char *const names[] = { "", "put", "memory", "su", "sumsum", "handle", "\xFF" };
    const char *name = names[below(it, 7)];
    gate_value *value = buffer(it, VALUE, sizeof *value);
    const uint8_t *at = name_in(it, name);
    HOLDS(it, gate_instance_global(on->instance, at, strlen(name), value) == GATE_NO_GLOBAL && is_untouched(value, sizeof *value));
}

static uint64_t size_of(play *it, guest *on) {
    uint64_t *size = buffer(it, SIZE, sizeof *size);
    enter();
    HOLDS(it, answered(gate_instance_memory_size(on->instance, size)) == GATE_OK && !asks.was_refused);
    return *size;
}

/* All that an instance shows is what the model has. */
static void agrees(play *it, guest *on) {
    const uint64_t size = on->state == GONE ? 0 : on->now.size;
    HOLDS(it, size_of(it, on) == size);
    uint8_t *out = buffer(it, OUT, size);
    const bool has_memory = on->state != GONE && on->of->most_pages;
    HOLDS(it, gate_instance_read(on->instance, 0, out, size) == (has_memory ? GATE_OK : GATE_OUTSIDE));
    HOLDS(it, !has_memory || !memcmp(out, on->now.memory, size));
    for (int i = 0; on->of->globals[i].name; i++) has_global(it, on, &on->of->globals[i], on->now.globals[i]);
    if (seldom(it)) has_no_global(it, on);
}

static void step_read(play *it, guest *on) {
    const uint64_t at = any_place(it, on->now.size);
    const size_t length = any_length(it, on->now.size);
    const bool lies = on->state != GONE && on->of->most_pages && length <= on->now.size && at <= on->now.size - length;
    uint8_t *out = buffer(it, OUT, length);
    enter();
    const uint32_t status = answered(gate_instance_read(on->instance, at, out, length));
    if (lies) HOLDS(it, status == GATE_OK && (!length || !memcmp(out, on->now.memory + at, length)));
    else HOLDS(it, status == GATE_OUTSIDE && is_untouched(out, length));
    HOLDS(it, !asks.was_refused);
}

static void step_write(play *it, guest *on) {
    const uint64_t at = any_place(it, on->now.size);
    const size_t length = any_length(it, on->now.size);
    const bool lies = on->state != GONE && on->of->most_pages && length <= on->now.size && at <= on->now.size - length;
    uint8_t *in = buffer(it, IN, length);
    for (size_t i = 0; i < length; i++) in[i] = (uint8_t)(at + i * 7 + on->now.hidden);
    if (length > 4) in[below(it, length)] = (uint8_t)random_of(it);
    enter();
    const uint32_t status = answered(gate_instance_write(on->instance, at, in, length));
    HOLDS(it, status == (lies ? GATE_OK : GATE_OUTSIDE) && !asks.was_refused);
    if (lies && length) memcpy(on->now.memory + at, in, length);
}

/* A call. */

/* What is called: a function, or a name of none. */
typedef struct called {
    const function *what; /* NULL where the name is of none */
    const char *name;
    uint32_t end; /* how it ends where nothing runs, else GATE_VALUES */
    bool has_bad_value;
    gate_settings limits;
    gate_value args[MOST_PARAMS + 1];
    size_t count;
} called;

static gate_value any_value(play *it, char of, uint64_t size) {
    static const uint64_t usual[] = { 0, 1, 2, 7, 8192, 65536, 0x7FFFFFFF, 0x80000000, 0xFFFFFFFF, UINT64_MAX };
    const uint64_t number = below(it, 3) ? any_place(it, size) : below(it, 2) ? usual[below(it, 10)] : random_of(it);
    return of == 'i' ? (gate_value){ 32, (uint32_t)number } : (gate_value){ 64, number };
}

static size_t count_of(const function *all) {
    size_t count = 0;
    while (all[count].name) count++;
    return count;
}

/* Small numbers now and then, so that loops end and texts fit. */
static void choose_args(play *it, guest *on, called *to) {
    to->count = strlen(to->what->params);
    for (size_t i = 0; i < to->count; i++) {
        to->args[i] = any_value(it, to->what->params[i], on->now.size);
        if (i + 1 == to->count && to->what->params[i] == 'i' && below(it, 2)) to->args[i].bits = below(it, 100);
    }
}

/* One argument too many, one too few, or one of the other type. */
static void spoil_args(play *it, called *to) {
    to->end = GATE_BAD_ARGUMENTS;
    const size_t at = to->count ? below(it, to->count) : 0;
    if (to->count && below(it, 2)) to->args[at] = to->args[at].width == 32 ? (gate_value){ 64, 1 } : (gate_value){ 32, 1 };
    else if (to->count && below(it, 2)) to->count--;
    else to->args[to->count++] = (gate_value){ 32, 1 };
}

static void spoil_value(play *it, called *to) {
    static const gate_value none[] = { { 0, 0 }, { 16, 1 }, { 33, 1 }, { 128, 0 }, { 32, UINT64_C(1) << 32 }, { 32, UINT64_MAX } };
    to->args[to->count ? below(it, to->count) : to->count++] = none[below(it, 6)];
    to->has_bad_value = true;
}

static called any_call(play *it, guest *on) {
    static const char *const none[] = { "", "putt", "pu", "memory ", "\xC3\xA9" };
    called to = { .limits = any_settings(it), .end = GATE_VALUES };
    to.what = &on->of->functions[below(it, count_of(on->of->functions))];
    to.name = to.what->name;
    choose_args(it, on, &to);
    if (seldom(it)) spoil_args(it, &to);
    if (seldom(it)) {
        to.end = on->of->globals[0].name && below(it, 2) ? GATE_NOT_A_FUNCTION : GATE_NO_EXPORT;
        to.name = to.end == GATE_NO_EXPORT ? none[below(it, 5)] : on->of->globals[0].name;
    }
    if (seldom(it)) spoil_value(it, &to);
    return to;
}

/* Each byte and number is as it was before the call, or as the whole call would leave it: the instance has what it shows. */
static void stopped_between(play *it, guest *on) {
    const uint64_t size = size_of(it, on);
    HOLDS(it, size == it->before.size || size == on->now.size);
    uint8_t *out = buffer(it, OUT, size);
    if (size) HOLDS(it, gate_instance_read(on->instance, 0, out, size) == GATE_OK);
    bool is_between = true;
    for (uint64_t i = 0; i < size; i++) is_between &= out[i] == it->before.memory[i] || out[i] == on->now.memory[i];
    HOLDS(it, is_between);
    if (size) memcpy(on->now.memory, out, size);
    on->now.size = size;
    on->state = SHORT;
    for (int i = 0; on->of->globals[i].name; i++) {
        gate_value value = { 0, 0 };
        const char *name = on->of->globals[i].name;
        HOLDS(it, gate_instance_global(on->instance, (const uint8_t *)name, strlen(name), &value) == GATE_OK);
        HOLDS(it, value.bits == it->before.globals[i] || value.bits == on->now.globals[i]);
        on->now.globals[i] = value.bits;
    }
}

static bool are_results(const gate_value *results, size_t room, const call *wanted) {
    bool is = true;
    for (size_t i = 0; i < room; i++) {
        const gate_value *at = &results[i], *its = &wanted->results[i];
        is &= i < wanted->ended.results ? at->width == its->width && at->bits == its->bits : is_untouched(at, sizeof *at);
    }
    return is;
}

/* What a call answers that the library makes. */
static void judge_call(play *it, guest *on, const called *to, const call *wanted, uint32_t status, const gate_call *ended,
                       const gate_value *results, size_t room) {
    if (on->state == GONE) {
        HOLDS(it, status == GATE_NO_INSTANCE && is_untouched(ended, sizeof *ended) && is_untouched(results, room * sizeof *results));
    } else if (asks.was_refused && status == GATE_NO_MEMORY) {
        HOLDS(it, is_untouched(ended, sizeof *ended) && is_untouched(results, room * sizeof *results));
        if (wanted->on) on->now = it->before;
    } else if (to->has_bad_value) {
        HOLDS(it, status == GATE_BAD_ARGUMENT && is_untouched(ended, sizeof *ended));
        HOLDS(it, is_untouched(results, room * sizeof *results));
    } else if (to->end != GATE_VALUES) {
        HOLDS(it, status == GATE_OK && is_end(ended, to->end, 0, 0, 0) && is_untouched(results, room * sizeof *results));
    } else if (on->state == SHORT) {
        HOLDS(it, status == GATE_OK && is_short(ended) && is_untouched(results, room * sizeof *results));
    } else if (asks.was_refused && ended->end == GATE_CALL_NO_MEMORY) {
        HOLDS(it, status == GATE_OK && is_short(ended) && is_untouched(results, room * sizeof *results));
        stopped_between(it, on);
    } else {
        const gate_call *its = &wanted->ended;
        HOLDS(it, status == GATE_OK && is_end(ended, its->end, its->reason, its->fuel, its->results));
        HOLDS(it, are_results(results, room, wanted));
    }
}

static void step_call(play *it, guest *on) {
    const called to = any_call(it, on);
    call wanted = { .limits = to.limits, .pages = on->made.pages };
    if (to.end == GATE_VALUES && !to.has_bad_value && on->state == LIVE) {
        wanted.on = &on->now;
        if (it->may_refuse) it->before = on->now;
        memcpy(wanted.args, to.args, sizeof wanted.args);
        model_call(&wanted, to.what);
    }
    const size_t room = below(it, 4);
    gate_value *args = buffer(it, ARGS, to.count * sizeof *args), *results = buffer(it, RESULTS, room * sizeof *results);
    if (to.count) memcpy(args, to.args, to.count * sizeof *args);
    gate_call *ended = ended_in(it);
    const uint8_t *name = name_in(it, to.name);
    const gate_settings *limits = settings_in(it, to.limits);
    uint64_t number = UINT64_MAX;
    const bool has_number = below(it, 2) && gate_instance_find(on->instance, name, strlen(to.name), &number) == GATE_OK;
    enter();
    const uint32_t status = answered(
        has_number ? gate_instance_call_at(on->instance, number, args, to.count, limits, results, room, ended)
                   : gate_instance_call(on->instance, name, strlen(to.name), args, to.count, limits, results, room, ended));
    judge_call(it, on, &to, &wanted, status, ended, results, room);
}

static void step_bad_limits(play *it, guest *on) {
    gate_call *ended = ended_in(it);
    const gate_settings *limits = settings_in(it, bad_settings(it));
    if (on->state == GONE) return;
    HOLDS(it, gate_instance_call(on->instance, NULL, 0, NULL, 0, limits, NULL, 0, ended) == GATE_BAD_ARGUMENT);
    HOLDS(it, is_untouched(ended, sizeof *ended));
}

/* Beginnings and ends. */

/* Whether an instance begins under these limits; where none does, how it ends. */
static bool begins(const plugin *of, gate_settings limits, gate_call *ended) {
    *ended = (gate_call){ GATE_VALUES, 0, 0, of->start_fuel, 0 };
    if (limits.pages < of->first_pages) *ended = (gate_call){ GATE_NOT_STARTED, GATE_MEMORY_LIMIT, 0, 0, 0 };
    else if (limits.fuel < of->start_fuel) *ended = (gate_call){ GATE_OUT_OF_FUEL, 0, 0, limits.fuel, 0 };
    return ended->end == GATE_VALUES;
}

static void has_begun(guest *on, gate_settings limits) {
    on->state = LIVE;
    on->made = limits;
    model_begin(&on->now, on->of);
}

static void step_new(play *it, guest *on) {
    const bool is_bad = seldom(it);
    const gate_settings made = is_bad ? bad_settings(it) : any_settings(it);
    const gate_settings *settings = settings_in(it, made);
    gate_instance *instance = buffer(it, HANDLE, sizeof *instance);
    gate_call *ended = ended_in(it), wanted;
    const bool is_begun = begins(on->of, made, &wanted);
    enter();
    const uint32_t status = answered(gate_instance_new(on->module, settings, instance, ended));
    if (is_bad || (asks.was_refused && status == GATE_NO_MEMORY)) {
        HOLDS(it, status == (is_bad ? GATE_BAD_ARGUMENT : GATE_NO_MEMORY));
        HOLDS(it, is_untouched(ended, sizeof *ended) && is_untouched(instance, sizeof *instance));
    } else if (!is_begun || status == GATE_NO_INSTANCE) {
        HOLDS(it, status == GATE_NO_INSTANCE && is_untouched(instance, sizeof *instance));
        HOLDS(it, is_end(ended, wanted.end, wanted.reason, wanted.fuel, 0) || (asks.was_refused && is_short(ended)));
    } else if (HOLDS(it, status == GATE_OK && is_end(ended, wanted.end, 0, wanted.fuel, 0))) {
        on->instance = *instance;
        has_begun(on, made);
        agrees(it, on);
    }
}

static void step_reset(play *it, guest *on) {
    gate_call *ended = ended_in(it);
    enter();
    const uint32_t status = answered(gate_instance_reset(on->instance, ended));
    if (asks.was_refused && status == GATE_NO_INSTANCE) {
        HOLDS(it, is_short(ended));
        on->state = GONE;
    } else {
        HOLDS(it, status == GATE_OK && is_end(ended, GATE_VALUES, 0, on->of->start_fuel, 0));
        has_begun(on, on->made);
    }
}

static void step_free(guest *on) {
    gate_instance_drop(on->instance);
    on->instance.at = NULL;
    on->state = NONE;
}

/* Another handle takes the place of this one, which is freed. The instance has none to do with it. */
static void step_share(play *it, guest *on) {
    gate_module *other = buffer(it, HANDLE, sizeof *other);
    enter();
    const uint32_t status = answered(gate_module_share(on->module, other));
    if (asks.was_refused && status == GATE_NO_MEMORY) {
        HOLDS(it, is_untouched(other, sizeof *other));
    } else if (HOLDS(it, status == GATE_OK)) {
        gate_module_free(on->module);
        on->module = *other;
    }
}

static void step_on_instance(play *it, guest *on) {
    const uint64_t pick = below(it, 100);
    if (pick < 55) step_call(it, on);
    else if (pick < 70) step_write(it, on);
    else if (pick < 82) step_read(it, on);
    else if (pick < 91) step_reset(it, on);
    else if (pick < 94) step_share(it, on);
    else if (pick < 97) step_bad_limits(it, on);
    else step_free(on);
}

void step(play *it, guest *on) {
    if (on->state == NONE) step_new(it, on);
    else step_on_instance(it, on);
    if (on->state != NONE) agrees(it, on);
}

gate_module judged(play *it, const plugin *of) {
    gate_verdict verdict;
    gate_module module = { NULL };
    if (!HOLDS(it, gate_module_new(of->module.at, of->module.length, &verdict, &module) == GATE_OK)) fail("a plug-in is refused");
    return module;
}

void end_guest(guest *on) {
    gate_module_free(on->module);
    step_free(on);
}
