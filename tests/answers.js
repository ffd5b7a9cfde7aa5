// What node says of modules and calls, for soak.py. Each line of standard input is a list in JSON: the path of a module, and calls,
// each of them a list of the export's name and of pairs of type and number. Each gets a line: whether the module is accepted, why
// it is not, and how each call ends on a fresh instance, in the words of the report of `gate run`.
const fs = require('fs');

const TRAPS = [['unreachable', 'unreachable'], ['divide by zero', 'divide-by-zero'], ['remainder by zero', 'divide-by-zero'],
    ['divide result unrepresentable', 'integer-overflow'], ['memory access out of bounds', 'out-of-bounds'],
    ['table index is out of bounds', 'undefined-element'],
    ['null function or function signature mismatch', 'uninitialized-element or type-mismatch']];

function trap(error) {
    const found = TRAPS.find(([message]) => error.message === message);
    return found ? 'trap ' + found[1] : String(error);
}

function instantiated(module) {
    try {
        return new WebAssembly.Instance(module).exports;
    } catch (error) {
        if (/Instance\(\): data segment is out of bounds/.test(error.message)) return 'not-started data-outside';
        if (/Instance\(\): table index is out of bounds/.test(error.message)) return 'not-started element-outside';
        return trap(error);
    }
}

function written(value) {
    return typeof value === 'bigint' ? `i64:${value}` : `i32:${value}`;
}

function called(module, [name, ...words]) {
    const kind = WebAssembly.Module.exports(module).find(it => it.name === name)?.kind;
    if (kind === undefined) return 'no-export';
    if (kind !== 'function') return 'not-a-function';
    const exports = instantiated(module);
    if (typeof exports === 'string') return exports;
    try {
        const result = exports[name](...words.map(([type, number]) => type === 'i64' ? BigInt(number) : Number(number)));
        const values = result === undefined ? [] : Array.isArray(result) ? result : [result];
        return ['values', values.map(written).join()].filter(it => it).join(' ');
    } catch (error) {
        return trap(error);
    }
}

function answer(path, calls) {
    const bytes = fs.readFileSync(path);
    const accepted = WebAssembly.validate(bytes);
    let module = null, why = '';
    try {
        module = new WebAssembly.Module(bytes);
    } catch (error) {
        why = error.message;
    }
    return { accepted, why, ends: module ? calls.map(it => called(module, it)) : [] };
}

require('readline').createInterface({ input: process.stdin }).on('line', line => {
    fs.writeSync(1, JSON.stringify(answer(...JSON.parse(line))) + '\n');
});
