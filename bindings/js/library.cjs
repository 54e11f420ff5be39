// SPDX-License-Identifier: MIT OR Apache-2.0
'use strict';
const { bind } = require('./modules.cjs');

module.exports = { bind };
