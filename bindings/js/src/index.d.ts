import type { Checker as CheckerOfItem, Naltvigo } from './load.js';

export { DecodeError, EncodeError, Refused, Simple, SortedMap, Tag } from './load.js';
export type { Bytes, ByteSink, DecodingOptions, Event, ObjectValue, Options, ReadingOptions, Value } from './load.js';

export const canonicalise: Naltvigo['canonicalise'];
export const check: Naltvigo['check'];
export const checkCanonical: Naltvigo['checkCanonical'];
export const Checker: Naltvigo['Checker'];
export type Checker = CheckerOfItem;
export const checkStream: Naltvigo['checkStream'];
export const decode: Naltvigo['decode'];
export const diagnostic: Naltvigo['diagnostic'];
export const encode: Naltvigo['encode'];
export const events: Naltvigo['events'];
export const freeMemory: Naltvigo['freeMemory'];
export const items: Naltvigo['items'];
export const readItems: Naltvigo['readItems'];
export const same: Naltvigo['same'];
export const version: Naltvigo['version'];
