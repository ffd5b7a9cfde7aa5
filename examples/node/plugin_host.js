#!/usr/bin/env node
// plugin_host.js MODULE TEXT..    hands texts to a plug-in that keeps the convention of docs/GUESTS.md, and prints its answers. Nothing
// that it gives is believed. Ends with 1 where a text has no answer, and with 2 where there is no plug-in.
'use strict';
const fs = require('node:fs');
const gate = require('./index.js');

// What the plug-in answers to a text; null where it has no answer.
function ask(plugIn, text) {
  const bytes = Buffer.from(text);
  const [address] = gate.call(plugIn, 'alloc', [bytes.length]);
  if (typeof address !== 'number' || address === 0) throw new Error('no room');
  gate.write(plugIn, address >>> 0, bytes);
  const [answer] = gate.call(plugIn, 'handle', [address, bytes.length]);
  if (typeof answer !== 'bigint') throw new Error('handle gives no i64');
  if (answer === -1n) return null;
  const place = BigInt.asUintN(64, answer);
  return gate.read(plugIn, Number(place >> 32n), Number(place & 0xFFFFFFFFn)).toString();
}

function main([path, ...texts]) {
  const bytes = fs.readFileSync(path);
  let plugIn;
  try {
    plugIn = gate.open(bytes);
  } catch (fault) {
    console.log(fault.message);
    return 2;
  }
  let status = 0;
  for (const text of texts) {
    try {
      const answer = ask(plugIn, text);
      console.log(answer ?? 'no answer');
      status |= answer === null;
    } catch (fault) {
      console.log(`fault: ${fault.message}`);
      status = 1;
    }
    gate.reset(plugIn); // with all its room, whatever the text did to it
  }
  gate.close(plugIn);
  return status;
}

process.exitCode = main(process.argv.slice(2));
