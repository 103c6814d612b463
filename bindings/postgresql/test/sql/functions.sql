CREATE EXTENSION naltvigo;
-- canonical bytes, in both orders: {"Fun": true, "Amt": -2} without a length, {100: 0, -1: 0}
SELECT cbor_canonical('\xbf6346756ef563416d7421ff'), cbor_canonical('\xa21864002000'), cbor_canonical('\xa21864002000', 'length');
SELECT cbor_is_canonical('\x1800'), cbor_is_canonical('\x00'), cbor_is_canonical('\xa22000186400'), cbor_is_canonical('\xa22000186400', 'length');
SELECT cbor_is_valid('\x1800'), cbor_is_valid(''), cbor_is_valid('\x0000'), cbor_is_valid('\xf93e00');
-- [1.5], a key twice, no item
SELECT cbor_refusal('\x81f93e00'), cbor_refusal('\xa201000100'), cbor_refusal(''), cbor_refusal('\x00') IS NULL AS accepted;
-- a tag is not its content, a bignum no integer, a byte string no text
SELECT cbor_same('\x1800', '\x00'), cbor_same('\xc24101', '\x01'), cbor_same('\x4161', '\x6161'), cbor_same('\xa201020304', '\xa203040102');
SELECT cbor_diagnostic('\xbf6346756ef563416d7421ff'), cbor_diagnostic('\x62c3bc'), cbor_diagnostic('\x62000a'), cbor_diagnostic('\xc249010000000000000000');
-- {1: {"a": [-1, "ü"]}, -5: 7, "a": 0, h'00': 1}, its keys in another order and without a length
CREATE TABLE held AS SELECT '\xbf6161002407410001'::bytea || '\x01bf6161822062c3bcff' || '\xff' AS doc;
SELECT cbor_diagnostic(doc) FROM held;
SELECT cbor_get(doc, 1), cbor_get(doc, 1, 'a'), cbor_get(doc, -5), cbor_get(doc, 'a'), cbor_get(doc, 1::smallint, 'a'::varchar) FROM held;
SELECT cbor_diagnostic(cbor_get(doc, -5))::bigint + 1 AS eight FROM held;
-- no such key; a key in what is no map; the bytes of a key
SELECT cbor_get(doc, 2) IS NULL AS a, cbor_get(doc, 'a', 'a') IS NULL AS b, cbor_get(doc, 1, 1) IS NULL AS c,
    cbor_get('\x8101', 1) IS NULL AS d, cbor_get(doc, E'\u0001') IS NULL AS e FROM held;
SELECT cbor_get('\xa21b7fffffffffffffff003b7fffffffffffffff01', 9223372036854775807), cbor_get('\xa21b7fffffffffffffff003b7fffffffffffffff01', (-9223372036854775808)::bigint);
-- the keys as an array, which may hold NULL or nothing
SELECT cbor_get(doc, VARIADIC ARRAY[1]), cbor_get('\xa100a10007', VARIADIC ARRAY[0, NULL]) IS NULL AS none, cbor_get('\x1800', VARIADIC ARRAY[]::text[]) FROM held;
-- NULL in, NULL out
SELECT num_nulls(cbor_canonical(NULL), cbor_canonical('\x00', NULL), cbor_is_canonical(NULL), cbor_is_valid(NULL), cbor_refusal(NULL),
    cbor_same(NULL, '\xff'), cbor_same('\xff', NULL), cbor_diagnostic(NULL), cbor_get(NULL, 1), cbor_get('\xff', 1, NULL)) AS ten;
-- compressed and stored apart, a result longer than its input, the limit on levels
CREATE TABLE big AS SELECT '\x9f'::bytea || decode(repeat('1800', n), 'hex') || '\xff' AS doc FROM (VALUES (10), (100000)) v (n);
SELECT length(doc), length(cbor_canonical(doc)), substr(cbor_canonical(doc), 1, 5), cbor_same(doc, cbor_canonical(doc)) FROM big;
SELECT length(cbor_canonical('\x9f'::bytea || decode(repeat('00', 65536), 'hex') || '\xff'));
SELECT length(cbor_diagnostic('\x9f'::bytea || decode(repeat('f7', 1000), 'hex') || '\xff'));
SELECT cbor_is_valid(decode(repeat('81', 256), 'hex') || '\x00'), cbor_refusal(decode(repeat('81', 257), 'hex') || '\x00');
-- the limit on bytes: 33,554,432
SELECT cbor_is_valid('\x5a01fffffb'::bytea || decode(repeat('00', 33554427), 'hex')),
    cbor_refusal('\x5a01fffffc'::bytea || decode(repeat('00', 33554428), 'hex'));
-- and a byte after an item that has as many
SELECT cbor_is_valid(doc), cbor_refusal(doc) FROM (SELECT '\x5a01fffffb'::bytea || decode(repeat('00', 33554428), 'hex') AS doc) long;
SELECT proname, provolatile, proisstrict, proparallel FROM pg_proc WHERE proname LIKE 'cbor\_%' ORDER BY 1;
