// What plugins.c does, by a JavaScript engine, which has no reset: kept and fresh. Of what node and jsc both have.
// usage: node plugins.js MODULE WAY COUNT | jsc plugins.js -- MODULE WAY COUNT
const isNode = typeof process !== 'undefined';
const [path, way, count] = isNode ? process.argv.slice(2) : arguments;
const bytes = isNode ? require('fs').readFileSync(path) : readFile(path, 'binary');
const LENGTH = 100, KEPT = 1000, A = 65;

const module_ = new WebAssembly.Module(bytes);
const input = new Uint8Array(LENGTH).fill(122), output = new Uint8Array(LENGTH);
let exports_, at, memory;

function begin() {
    exports_ = new WebAssembly.Instance(module_).exports;
    at = exports_.alloc(LENGTH);
    memory = new Uint8Array(exports_.memory.buffer);
}

function filter() {
    memory.set(input, at);
    const where = exports_.handle(at, LENGTH);
    const from = Number(where >> 32n), length = Number(where & 0xFFFFFFFFn);
    output.set(memory.subarray(from, from + length));
}

for (let i = 0; i < Number(count); i++) {
    input[0] = A + 32 + i % 26;
    if (way !== 'kept' || i % KEPT === 0) begin();
    filter();
    if (output[0] !== A + i % 26 || output[LENGTH - 1] !== 90) throw Error('another answer');
}
