// Prints what measure.mjs finds in Node as a line of JSON: node [--experimental-wasm-memory64] in_node.mjs INPUTS
import { readFileSync } from 'node:fs';
import * as naltvigo from '../../bindings/js/src/node.js';
import { hasMemory64 } from '../../bindings/js/src/load.js';
import { measure } from './measure.mjs';

const input = name => readFileSync(`${process.argv[2]}/${name}`);
const found = measure(naltvigo, input('records.cbor'), input('records.bytewise'));
console.log(JSON.stringify({ engine: `Node ${process.version}`, memory: hasMemory64() ? 64 : 32, found }));
