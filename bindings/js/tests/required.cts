// What tsc --strict must accept of the package by require. It is compiled, and not run.
import naltvigo = require('naltvigo');
import { decode, type Value } from 'naltvigo';
import loading = require('naltvigo/load');

const data: Uint8Array = naltvigo.encode({ a: new naltvigo.Tag(1, 2) });
const value: Value = decode(data, { canonical: true });
const { encode }: loading.Naltvigo = loading.loadSync(data);
const checker: naltvigo.Checker = new naltvigo.Checker();
export = { value, encode, checker };
