// The addon: beside this file, or where GATE_NODE says.
'use strict';
module.exports = require(process.env.GATE_NODE || './gate.node');
