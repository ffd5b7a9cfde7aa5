// What node says of sequences of calls, for sequences.py. Each line of standard input is a list in JSON: a module in base64, the names of
// its globals, and steps. Each step is answered by a line in JSON, [how it ended, the globals after it, the length of the memory], and by
// the bytes of the memory. Where no instance can be made, the first step, which makes one, is answered alone.
const fs = require('fs');

const TRAPS = [['unreachable', 'unreachable'], ['divide by zero', 'divide-by-zero'], ['remainder by zero', 'divide-by-zero'],
    ['divide result unrepresentable', 'integer-overflow'], ['memory access out of bounds', 'out-of-bounds'],
    ['table index is out of bounds', 'undefined-element'],
    ['null function or function signature mismatch', 'uninitialized-element or type-mismatch']];

function trapped(error) {
    const found = TRAPS.find(([message]) => error.message === message);
    return found ? 'trap ' + found[1] : String(error);
}

function written(value) {
    return typeof value === 'bigint' ? `i64:${BigInt.asUintN(64, value)}` : `i32:${value >>> 0}`;
}

class Play {
    constructor(module, names) {
        this.module = module;
        this.names = names;
        this.exports = null;
    }

    bytes() {
        return this.exports?.memory ? new Uint8Array(this.exports.memory.buffer) : new Uint8Array(0);
    }

    globals() {
        return this.exports ? this.names.map(name => written(this.exports[name].value)) : [];
    }

    fresh() {
        this.exports = null;
        try {
            this.exports = new WebAssembly.Instance(this.module).exports;
            return 'begun';
        } catch (error) {
            if (/Instance\(\): data segment .*is out of bounds/.test(error.message)) return 'not-started data-outside';
            if (/Instance\(\): table (index|initializer).* is out of bounds/.test(error.message)) return 'not-started element-outside';
            return trapped(error);
        }
    }

    call(name, args) {
        try {
            const result = this.exports[name](...args.map(([type, bits]) => type === 'i64' ? BigInt(bits) : Number(bits)));
            const values = result === undefined ? [] : Array.isArray(result) ? result : [result];
            return ['values', ...values.map(written)].join(' ');
        } catch (error) {
            return trapped(error);
        }
    }

    lies(at, length) {
        return BigInt(at) + BigInt(length) <= BigInt(this.bytes().length);
    }

    read(at, length) {
        if (!this.lies(at, length)) return 'outside';
        return 'bytes ' + Buffer.from(this.bytes().slice(Number(at), Number(at) + length)).toString('hex');
    }

    write(at, hex) {
        const bytes = Buffer.from(hex, 'hex');
        if (!this.lies(at, bytes.length)) return 'outside';
        this.bytes().set(bytes, Number(at));
        return 'written';
    }
}

function writeAll(bytes) {
    for (let from = 0; from < bytes.length;) from += fs.writeSync(1, bytes, from);
}

function play([module, names, steps]) {
    const it = new Play(new WebAssembly.Module(Buffer.from(module, 'base64')), names);
    for (const [what, ...words] of steps) {
        const end = it[what](...words), bytes = it.bytes();
        writeAll(Buffer.from(JSON.stringify([end, it.globals(), bytes.length]) + '\n'));
        writeAll(bytes);
        if (!it.exports) return;
    }
}

require('readline').createInterface({ input: process.stdin }).on('line', line => play(JSON.parse(line)));
