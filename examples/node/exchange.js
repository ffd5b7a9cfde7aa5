#!/usr/bin/env node
// exchange.js MODULE TEXT FUEL [KEY=VALUE ..]    hands a text to a plug-in that may ask for more, as examples/guests/greet.wasm does:
//
//     $ node examples/node/exchange.js examples/guests/greet.wasm Hello 1000 name=World
//     Hello World
//
// An answer that begins with `?` is a wish: it names a key, and the plug-in is called again with the key's value. Any other is the last
// one, and is printed without its first byte. All calls together have FUEL. Ends with 1 where there is no last answer, and with 2 where
// there is no plug-in.
'use strict';
const fs = require('node:fs');
const gate = require('./index.js');

// The last answer. There is no reset between the calls: the plug-in keeps in its memory how far it is.
function exchange(plugIn, text, fuel, known) {
  // The one number that an export gives; what it costs, also where it throws, is gone from the fuel.
  function number(name, ...args) {
    try {
      return gate.call(plugIn, name, args, { fuel })[0];
    } finally {
      fuel -= gate.fuel(plugIn);
    }
  }
  for (;;) {
    const bytes = Buffer.from(text), address = number('alloc', bytes.length);
    if (typeof address !== 'number' || address === 0) throw new Error('no room');
    gate.write(plugIn, address >>> 0, bytes);
    const found = number('handle', address, bytes.length);
    if (typeof found !== 'bigint') throw new Error('handle gives no i64');
    const place = BigInt.asUintN(64, found);
    const answer = gate.read(plugIn, Number(place >> 32n), Number(place & 0xFFFFFFFFn)).toString();
    if (!answer.startsWith('?')) return answer.slice(1);
    text = known.get(answer.slice(1)) ?? '';
  }
}

function main([path, text, fuel, ...words]) {
  const known = new Map(words.map((word) => /^([^=]*)=(.*)$/s.exec(word)?.slice(1) ?? []));
  let plugIn;
  try {
    plugIn = gate.open(fs.readFileSync(path), { fuel: Number(fuel) });
  } catch (fault) {
    console.log(fault.message);
    return 2;
  }
  try {
    console.log(exchange(plugIn, text, Number(fuel), known));
    return 0;
  } catch (fault) {
    console.log(fault.message);
    return 1;
  } finally {
    gate.close(plugIn);
  }
}

process.exitCode = main(process.argv.slice(2));
