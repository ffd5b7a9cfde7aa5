// A plain decoder and body checker in C, of the same design as ours, to measure against in one run.
// It takes the instructions and types that ours takes, several results, block types by index and sign extension among them.
// Of the module it reads what bodies need, and asks none of the rules on segments, exports, the start and first values.
// usage: peer sections|bodies|check|judge MODULE TIMES    prints the best of TIMES as seconds, and MB/s of the file
//   bodies keeps the tokens of each body, check checks and keeps nothing, as `gate check` does, judge does both
#include <stdint.h>
#include <stdio.h>
#include <stdlib.h>
#include <string.h>
#include <time.h>

typedef uint8_t u8;
typedef uint32_t u32;
typedef uint64_t u64;
typedef const u8 *Bytes;

enum { I32 = 0x7F, I64 = 0x7E, F32 = 0x7D, F64 = 0x7C, UNKNOWN = 0 };

typedef struct { Bytes params, results; u32 count, result_count; } Type;
typedef struct { Bytes at; u32 size; } Body;
typedef struct { u8 tag, small; u32 first, second; u64 large; } Token;
typedef struct { const Type *type; u32 base; u8 kind, dead; } Frame;
typedef struct {
    Type *types; u32 type_count;
    u32 *functions; u32 function_count, imported;   // the type of each function, the imported ones first
    Body *bodies; u32 body_count;
    u8 *globals; u32 global_count;
    int has_table, has_memory;
} Module;

static _Noreturn void refuse(const char *why) { fprintf(stderr, "refused: %s\n", why); exit(2); }

// ---- numbers

__attribute__((noinline)) static Bytes long_u32(Bytes p, Bytes end, u32 *out) {
    u32 value = 0;
    for (int i = 0; i < 5; i++) {
        if (p >= end) return 0;
        u8 b = *p++;
        value |= (u32)(b & 127) << (7 * i);
        if (b < 128) { if (i == 4 && b > 15) return 0; *out = value; return p; }
    }
    return 0;
}

__attribute__((noinline)) static Bytes long_signed(Bytes p, Bytes end, u64 *out, int most, int bits) {
    u64 value = 0;
    int shift = 0;
    for (int i = 0; i < most; i++) {
        if (p >= end) return 0;
        u8 b = *p++;
        value |= (u64)(b & 127) << shift;
        shift += 7;
        if (b < 128) {
            if (shift < 64 && (b & 64)) value |= ~0ull << shift;
            if (bits < 64) { int64_t high = (int64_t)value >> (bits - 1); if (high != 0 && high != -1) return 0; }
            else if (shift >= 64 && b != 0 && b != 127) return 0;
            *out = value;
            return p;
        }
    }
    return 0;
}

#define BYTE(x) if (p >= end) return 0; u8 x = *p++
#define U32(x) u32 x; if (__builtin_expect(p < end && *p < 128, 1)) x = *p++; else { p = long_u32(p, end, &x); if (!p) return 0; }

// ---- the module's sections

static Bytes skip_expression(Bytes p, Bytes end) {
    BYTE(op); u64 n;
    if (op == 0x41) { p = long_signed(p, end, &n, 5, 32); if (!p) return 0; }
    else if (op == 0x42) { p = long_signed(p, end, &n, 10, 64); if (!p) return 0; }
    else if (op == 0x43) { if (end - p < 4) return 0; p += 4; }
    else if (op == 0x44) { if (end - p < 8) return 0; p += 8; }
    else if (op == 0x23) { U32(x); (void)x; }
    else return 0;
    BYTE(last);
    return last == 0x0B ? p : 0;
}

static int is_value_type(u8 t) { return t >= F64 && t <= I32; }

static Bytes skip_types(Bytes p, Bytes end, u32 n) {
    if ((u64)(end - p) < n) return 0;
    for (u32 k = 0; k < n; k++) if (!is_value_type(p[k])) return 0;
    return p + n;
}

static Bytes read_types(Module *m, Bytes p, Bytes end) {
    U32(n);
    if ((u64)(end - p) < n) return 0;
    m->types = malloc((n + 1) * sizeof(Type));
    for (u32 i = 0; i < n; i++) {
        BYTE(form); if (form != 0x60) return 0;
        U32(params); Bytes from = p;
        p = skip_types(p, end, params); if (!p) return 0;
        U32(results);
        m->types[i] = (Type){from, p, params, results};
        p = skip_types(p, end, results); if (!p) return 0;
    }
    m->type_count = n;
    return p;
}

static Bytes read_limits(Bytes p, Bytes end) {
    BYTE(tag); U32(least); (void)least;
    if (tag == 1) { U32(most); (void)most; } else if (tag) return 0;
    return p;
}

static Bytes read_imports(Module *m, Bytes p, Bytes end) {
    U32(n);
    if ((u64)(end - p) < n) return 0;
    m->functions = malloc(((u64)n + 1) * sizeof(u32));
    m->globals = malloc(2 * (u64)n + 2);
    for (u32 i = 0; i < n; i++) {
        for (int name = 0; name < 2; name++) { U32(long_by); if ((u64)(end - p) < long_by) return 0; p += long_by; }
        BYTE(kind);
        if (kind == 0) { U32(t); if (t >= m->type_count) return 0; m->functions[m->function_count++] = t; }
        else if (kind == 1) { BYTE(e); if (e != 0x70) return 0; p = read_limits(p, end); if (!p) return 0; m->has_table = 1; }
        else if (kind == 2) { p = read_limits(p, end); if (!p) return 0; m->has_memory = 1; }
        else if (kind == 3) {
            BYTE(t); BYTE(v); if (!is_value_type(t) || v > 1) return 0;
            m->globals[2 * m->global_count] = t; m->globals[2 * m->global_count + 1] = v; m->global_count++;
        } else return 0;
    }
    m->imported = m->function_count;
    return p;
}

static Bytes read_functions(Module *m, Bytes p, Bytes end) {
    U32(n);
    if ((u64)(end - p) < n) return 0;
    m->functions = realloc(m->functions, ((u64)m->imported + n + 1) * sizeof(u32));
    for (u32 i = 0; i < n; i++) { U32(t); if (t >= m->type_count) return 0; m->functions[m->function_count++] = t; }
    return p;
}

static Bytes read_bodies(Module *m, Bytes p, Bytes end) {
    U32(n);
    if (n != m->function_count - m->imported) return 0;
    m->bodies = malloc(((u64)n + 1) * sizeof(Body));
    for (u32 i = 0; i < n; i++) { U32(size); if ((u64)(end - p) < size) return 0; m->bodies[i] = (Body){p, size}; p += size; }
    m->body_count = n;
    return p;
}

static Bytes read_globals(Module *m, Bytes p, Bytes end) {
    U32(n);
    if ((u64)(end - p) < n) return 0;
    m->globals = realloc(m->globals, 2 * ((u64)m->global_count + n) + 2);
    for (u32 i = 0; i < n; i++) {
        BYTE(t); BYTE(v); if (!is_value_type(t) || v > 1) return 0;
        m->globals[2 * m->global_count] = t; m->globals[2 * m->global_count + 1] = v; m->global_count++;
        p = skip_expression(p, end); if (!p) return 0;
    }
    return p;
}

static int read_module(Module *m, Bytes p, Bytes end) {
    memset(m, 0, sizeof *m);
    if (end - p < 8 || memcmp(p, "\0asm\1\0\0\0", 8)) return 0;
    p += 8;
    u8 last = 0;
    while (p < end) {
        BYTE(id); U32(size);
        if ((u64)(end - p) < size) return 0;
        if (id > 11 || (id && id <= last)) return 0;
        if (id) last = id;
        Bytes stop = p + size, q = stop;
        switch (id) {
        case 1: q = read_types(m, p, stop); break;
        case 2: q = read_imports(m, p, stop); break;
        case 3: q = read_functions(m, p, stop); break;
        case 4: if (size == 1 && p[0] == 0) break; if (size < 2 || p[0] != 1 || p[1] != 0x70) return 0; q = read_limits(p + 2, stop); m->has_table = 1; break;
        case 5: if (size == 1 && p[0] == 0) break; if (size < 1 || p[0] != 1) return 0; q = read_limits(p + 1, stop); m->has_memory = 1; break;
        case 6: q = read_globals(m, p, stop); break;
        case 10: q = read_bodies(m, p, stop); break;
        default: break;
        }
        if (q != stop) return 0;
        p = stop;
    }
    return m->body_count == m->function_count - m->imported;
}

static void free_module(Module *m) { free(m->types); free(m->functions); free(m->bodies); free(m->globals); }

// ---- one pass over a body

typedef struct { Token *tokens; size_t count, room; u8 *operands; size_t operand_room; Frame *frames; size_t frame_room; u8 *locals; size_t local_room; } Scratch;

static u8 operand_of[256], second_of[256], result_of[256], width_of[256];

static void fill(int from, int to, u8 a, u8 b, u8 r) { for (int o = from; o <= to; o++) operand_of[o] = a, second_of[o] = b, result_of[o] = r; }

static void make_rows(void) {
    fill(0x45, 0x45, I32, 0, I32); fill(0x46, 0x4F, I32, I32, I32); fill(0x50, 0x50, I64, 0, I32); fill(0x51, 0x5A, I64, I64, I32);
    fill(0x5B, 0x60, F32, F32, I32); fill(0x61, 0x66, F64, F64, I32); fill(0x67, 0x69, I32, 0, I32); fill(0x6A, 0x78, I32, I32, I32);
    fill(0x79, 0x7B, I64, 0, I64); fill(0x7C, 0x8A, I64, I64, I64); fill(0x8B, 0x91, F32, 0, F32); fill(0x92, 0x98, F32, F32, F32);
    fill(0x99, 0x9F, F64, 0, F64); fill(0xA0, 0xA6, F64, F64, F64); fill(0xA7, 0xA7, I64, 0, I32);
    const u8 in[] = {F32, F32, F64, F64, I32, I32, F32, F32, F64, F64, I32, I32, I64, I64, F64, I32, I32, I64, I64, F32, F32, F64, I32, I64};
    const u8 out[] = {I32, I32, I32, I32, I64, I64, I64, I64, I64, I64, F32, F32, F32, F32, F32, F64, F64, F64, F64, F64, I32, I64, F32, F64};
    for (int i = 0; i < 24; i++) fill(0xA8 + i, 0xA8 + i, in[i], 0, out[i]);
    fill(0xC0, 0xC1, I32, 0, I32); fill(0xC2, 0xC4, I64, 0, I64);
    const u8 loads[] = {I32, I64, F32, F64, I32, I32, I32, I32, I64, I64, I64, I64, I64, I64, I32, I64, F32, F64, I32, I32, I64, I64, I64};
    const u8 widths[] = {2, 3, 2, 3, 0, 0, 1, 1, 0, 0, 1, 1, 2, 2, 2, 3, 2, 3, 0, 1, 0, 1, 2};
    for (int i = 0; i < 23; i++) result_of[0x28 + i] = loads[i], width_of[0x28 + i] = widths[i];
}

#define GROW(list, room, need) if (__builtin_expect((need) >= (room), 0)) { room = room ? 2 * room + (need) : 64 + (need); list = realloc(list, room * sizeof *list); }
#define PUSH(t) do { GROW(s->operands, s->operand_room, height) s->operands[height++] = (t); } while (0)
#define POP(t) do { if (height == frame.base) { if (!frame.dead) return 0; } else { u8 got = s->operands[--height]; if (got != (t) && got != UNKNOWN) return 0; } } while (0)
#define KEEP(T, S, F, N, L) do { if (keeps) { GROW(s->tokens, s->room, s->count) s->tokens[s->count++] = (Token){T, S, F, N, L}; } } while (0)
#define PUSH_ALL(list, n) do { for (u32 i_ = 0; i_ < (n); i_++) PUSH((list)[i_]); } while (0)
#define POP_ALL(list, n) do { for (u32 i_ = (n); i_-- > 0;) POP((list)[i_]); } while (0)
#define ENTER(K, Y) do { GROW(s->frames, s->frame_room, depth) s->frames[depth++] = frame; frame = (Frame){Y, height, K, 0}; } while (0)
#define DEAD() do { height = frame.base; frame.dead = 1; } while (0)
#define LABEL(l) ((l) == 0 ? &frame : &s->frames[depth - (l)])

// What a branch to a frame takes.
typedef struct { Bytes at; u32 count; } List;
static inline List label_of(const Frame *f) { return f->kind == 3 ? (List){f->type->params, f->type->count} : (List){f->type->results, f->type->result_count}; }
static inline int same_lists(List a, List b) { return a.count == b.count && (a.at == b.at || !memcmp(a.at, b.at, a.count)); }

// The types of blocks that are no index: of no result, and of one by its byte.
static const u8 value_types[] = {F64, F32, I64, I32};
static const Type no_result = {value_types, value_types, 0, 0};
static const Type one_result[] = {{value_types, value_types, 0, 1}, {value_types, value_types + 1, 0, 1}, {value_types, value_types + 2, 0, 1}, {value_types, value_types + 3, 0, 1}};

__attribute__((noinline)) static const Type *type_by_index(const Module *m, Bytes *p, Bytes end) {
    u64 n;
    *p = long_signed(*p, end, &n, 5, 33);
    return *p && n < m->type_count ? &m->types[n] : 0;
}

__attribute__((always_inline)) static inline int one_body(const Module *m, u32 func, Scratch *s, int checks, int keeps) {
    Bytes p = m->bodies[func].at, end = p + m->bodies[func].size;
    const Type *type = &m->types[m->functions[m->imported + func]];
    u64 locals = type->count;
    GROW(s->locals, s->local_room, locals)
    memcpy(s->locals, type->params, type->count);
    U32(runs);
    for (u32 i = 0; i < runs; i++) {
        U32(n); BYTE(t);
        if (!is_value_type(t)) return 0;
        if (locals + n > type->count + 100000) return 0;
        GROW(s->locals, s->local_room, locals + n)
        memset(s->locals + locals, t, n);
        locals += n;
    }
    size_t height = 0, depth = 0;
    Frame frame = {type, 0, 0, 0};
    s->count = 0;
    for (;;) {
        BYTE(op);
        switch (op) {
        case 0x00: KEEP(op, 0, 0, 0, 0); if (checks) DEAD(); break;
        case 0x01: KEEP(op, 0, 0, 0, 0); break;
        case 0x02: case 0x03: case 0x04: {
            if (p >= end) return 0;
            u8 b = *p;
            const Type *y = b == 0x40 ? &no_result : is_value_type(b) ? &one_result[b - F64] : 0;
            if (y) p++; else { y = type_by_index(m, &p, end); if (!y) return 0; }
            KEEP(op, b, 0, 0, 0);
            if (checks) { if (op == 4) POP(I32); POP_ALL(y->params, y->count); }
            ENTER(op, y);
            if (checks) PUSH_ALL(y->params, y->count);
            break;
        }
        case 0x05: case 0x0B:
            KEEP(op, 0, 0, 0, 0);
            if (op == 5 && frame.kind != 4) return 0;
            if (checks) {
                POP_ALL(frame.type->results, frame.type->result_count);
                if (height != frame.base) return 0;
                if (op == 0x0B && frame.kind == 4 && !same_lists((List){frame.type->params, frame.type->count}, (List){frame.type->results, frame.type->result_count})) return 0;
            }
            if (op == 5) { frame.kind = 5; frame.dead = 0; if (checks) PUSH_ALL(frame.type->params, frame.type->count); break; }
            if (depth == 0) return p == end;
            { const Type *y = frame.type; frame = s->frames[--depth]; if (checks) PUSH_ALL(y->results, y->result_count); }
            break;
        case 0x0C: case 0x0D: {
            U32(l);
            KEEP(op, 0, l, 0, 0);
            if (checks) {
                if (l > depth) return 0;
                List r = label_of(LABEL(l));
                if (op == 0x0D) POP(I32);
                POP_ALL(r.at, r.count);
                if (op == 0x0C) DEAD(); else PUSH_ALL(r.at, r.count);
            }
            break;
        }
        case 0x0E: {
            U32(n); KEEP(op, 0, n, 0, 0);
            if ((u64)(end - p) < n) return 0;
            List same = {0, 0};
            for (u32 i = 0; i <= n; i++) {
                U32(l);
                if (checks) { if (l > depth) return 0; List r = label_of(LABEL(l)); if (!i) same = r; else if (!same_lists(r, same)) return 0; }
            }
            if (checks) { POP(I32); POP_ALL(same.at, same.count); DEAD(); }
            break;
        }
        case 0x0F: KEEP(op, 0, 0, 0, 0); if (checks) { POP_ALL(type->results, type->result_count); DEAD(); } break;
        case 0x10: {
            U32(f); KEEP(op, 0, f, 0, 0);
            if (checks) {
                if (f >= m->function_count) return 0;
                const Type *t = &m->types[m->functions[f]];
                POP_ALL(t->params, t->count);
                PUSH_ALL(t->results, t->result_count);
            }
            break;
        }
        case 0x11: {
            U32(y); BYTE(zero); if (zero) return 0; KEEP(op, 0, y, 0, 0);
            if (checks) {
                if (!m->has_table || y >= m->type_count) return 0;
                POP(I32);
                const Type *t = &m->types[y];
                POP_ALL(t->params, t->count);
                PUSH_ALL(t->results, t->result_count);
            }
            break;
        }
        case 0x1A: KEEP(op, 0, 0, 0, 0); if (checks) { if (height > frame.base) height--; else if (!frame.dead) return 0; } break;
        case 0x1B:
            KEEP(op, 0, 0, 0, 0);
            if (checks) {
                POP(I32);
                u8 a = UNKNOWN, b = UNKNOWN;
                if (height > frame.base) a = s->operands[--height]; else if (!frame.dead) return 0;
                if (height > frame.base) b = s->operands[--height]; else if (!frame.dead) return 0;
                if (a && b && a != b) return 0;
                PUSH(a ? a : b);
            }
            break;
        case 0x20: { U32(x); KEEP(op, 0, x, 0, 0); if (checks) { if (x >= locals) return 0; PUSH(s->locals[x]); } break; }
        case 0x21: { U32(x); KEEP(op, 0, x, 0, 0); if (checks) { if (x >= locals) return 0; POP(s->locals[x]); } break; }
        case 0x22: { U32(x); KEEP(op, 0, x, 0, 0); if (checks) { if (x >= locals) return 0; POP(s->locals[x]); PUSH(s->locals[x]); } break; }
        case 0x23: case 0x24: {
            U32(x); KEEP(op, 0, x, 0, 0);
            if (checks) {
                if (x >= m->global_count) return 0;
                if (op == 0x23) PUSH(m->globals[2 * x]); else { if (!m->globals[2 * x + 1]) return 0; POP(m->globals[2 * x]); }
            }
            break;
        }
        case 0x28 ... 0x3E: {
            U32(align); U32(offset); KEEP(op, 0, align, offset, 0);
            if (checks) {
                if (!m->has_memory || align > width_of[op]) return 0;
                if (op < 0x36) { POP(I32); PUSH(result_of[op]); } else { POP(result_of[op]); POP(I32); }
            }
            break;
        }
        case 0x3F: case 0x40: { BYTE(zero); if (zero) return 0; KEEP(op, 0, 0, 0, 0); if (checks) { if (!m->has_memory) return 0; if (op == 0x40) POP(I32); PUSH(I32); } break; }
        case 0x41: { u64 n; if (p < end && *p < 64) n = *p++; else { p = long_signed(p, end, &n, 5, 32); if (!p) return 0; } KEEP(op, 0, (u32)n, 0, 0); if (checks) PUSH(I32); break; }
        case 0x42: { u64 n; p = long_signed(p, end, &n, 10, 64); if (!p) return 0; KEEP(op, 0, 0, 0, n); if (checks) PUSH(I64); break; }
        case 0x43: if (end - p < 4) return 0; KEEP(op, 0, 0, 0, 0); p += 4; if (checks) PUSH(F32); break;
        case 0x44: if (end - p < 8) return 0; KEEP(op, 0, 0, 0, 0); p += 8; if (checks) PUSH(F64); break;
        case 0x45 ... 0xC4:
            KEEP(op, 0, 0, 0, 0);
            if (checks) { if (second_of[op]) POP(second_of[op]); POP(operand_of[op]); PUSH(result_of[op]); }
            break;
        default: return 0;
        }
    }
}

__attribute__((noinline)) static int decode_body(const Module *m, u32 func, Scratch *s) { return one_body(m, func, s, 0, 1); }
__attribute__((noinline)) static int check_body(const Module *m, u32 func, Scratch *s) { return one_body(m, func, s, 1, 0); }
__attribute__((noinline)) static int judge_body(const Module *m, u32 func, Scratch *s) { return one_body(m, func, s, 1, 1); }

static double now(void) { struct timespec t; clock_gettime(CLOCK_MONOTONIC, &t); return t.tv_sec + t.tv_nsec * 1e-9; }

int main(int argc, char **argv) {
    if (argc != 4) { fprintf(stderr, "usage: peer sections|bodies|check|judge MODULE TIMES\n"); return 64; }
    FILE *f = fopen(argv[2], "rb");
    if (!f) { perror(argv[2]); return 74; }
    fseek(f, 0, SEEK_END); long size = ftell(f); rewind(f);
    u8 *bytes = malloc(size);
    if (fread(bytes, 1, size, f) != (size_t)size) return 74;
    make_rows();
    int bodies = strcmp(argv[1], "sections");
    int (*body)(const Module *, u32, Scratch *) = !strcmp(argv[1], "check") ? check_body : !strcmp(argv[1], "judge") ? judge_body : decode_body;
    double best = 1e9;
    for (int i = 0; i < atoi(argv[3]); i++) {
        double start = now();
        Module m; Scratch s = {0};
        if (!read_module(&m, bytes, bytes + size)) refuse("malformed");
        for (u32 k = 0; bodies && k < m.body_count; k++) if (!body(&m, k, &s)) refuse("body");
        free_module(&m); free(s.tokens); free(s.operands); free(s.frames); free(s.locals);
        double took = now() - start;
        if (took < best) best = took;
    }
    printf("%.6f s  %.1f MB/s\n", best, size / best / 1e6);
    return 0;
}
