-- {1: {"a": [-1, "ü", h'00ff', true, null]}, -5: 18([7, 2^63]), "t": "a\0"}, in another order and without lengths
CREATE TABLE nested AS SELECT '\xbf'::bytea || '\x6174626100' || '\x24d28207' || '\x1b8000000000000000'
    || '\x01bf61619f2062c3bc4200fff5f6ffff' || '\xff' AS doc;
SELECT cbor_diagnostic(doc) FROM nested;
-- keys, indices from 0, the number of a tag
SELECT cbor_int(doc, 1, 'a', 0), cbor_text(doc, 1, 'a', 1), cbor_bytes(doc, 1, 'a', 2), cbor_bool(doc, 1, 'a', 3), cbor_int(doc, -5, 18, 0) FROM nested;
SELECT cbor_get(doc, 1, 'a', 4), cbor_get(doc, -5), cbor_get(doc, -5, 18) FROM nested;
-- without a path
SELECT cbor_int('\x1903e8'), cbor_int('\x3903e7'), cbor_text('\x62c3bc'), cbor_bytes('\x5f4101420203ff'), cbor_bool('\xf4'), cbor_bool('\xf5');
SELECT cbor_int('\x1b7fffffffffffffff'), cbor_int('\x3b7fffffffffffffff'), cbor_text('\x60') = '' AS empty, cbor_bytes('\x40');
-- NULL: another kind
SELECT num_nulls(cbor_int('\x6131'), cbor_int('\x4101'), cbor_int('\xf5'), cbor_int('\xc101'), cbor_text('\x01'), cbor_text('\x4161'), cbor_bytes('\x6161'),
    cbor_bool('\x01'), cbor_bool('\xf6'), cbor_bool('\xf7'), cbor_int('\x80')) AS eleven;
-- NULL: no such value in SQL
SELECT num_nulls(cbor_int('\x1b8000000000000000'), cbor_int('\x3b8000000000000000'), cbor_text(doc, 't'), cbor_int(doc, -5, 18, 1)) AS four FROM nested;
-- NULL: the path leads nowhere
SELECT num_nulls(cbor_int(doc, 2), cbor_int(doc, '1'), cbor_int(doc, 1, 'a', 5), cbor_int(doc, 1, 'a', -1), cbor_int(doc, 1, 'a', '0'), cbor_int(doc, 1, 'a', 0, 0),
    cbor_int(doc, -5, 17, 0), cbor_int(doc, -5, 0), cbor_get(doc, -5, 18, 9223372036854775807), cbor_get('\xdbffffffffffffffff00', -1)) AS ten FROM nested;
SELECT num_nulls(cbor_int(NULL), cbor_int(doc, NULL), cbor_text(NULL, 1), cbor_bytes(doc, 1, NULL), cbor_bool(doc, VARIADIC ARRAY[1, NULL])) AS five FROM nested;
SELECT cbor_int(doc, VARIADIC ARRAY[-5, 18, 0]), cbor_int('\x07', VARIADIC ARRAY[]::int[]), cbor_text(doc, VARIADIC NULL::text[]) IS NULL AS none FROM nested;

-- rows
SELECT ordinal, key, cbor_diagnostic(value) FROM nested, cbor_each(cbor_get(doc, 1, 'a'));
SELECT ordinal, coalesce(cbor_int(key)::text, cbor_text(key)) AS key, length(value) FROM nested, cbor_each(doc);
SELECT count(*) FROM cbor_each('\x80') UNION ALL SELECT count(*) FROM cbor_each('\xa0') UNION ALL SELECT count(*) FROM cbor_each('\x00')
    UNION ALL SELECT count(*) FROM cbor_each('\xc18101') UNION ALL SELECT count(*) FROM cbor_each(NULL);
SELECT (cbor_each('\x9f0102ff')).*;
SELECT sum(cbor_int(value)), count(DISTINCT ordinal), max(ordinal) FROM cbor_each((SELECT '\x99ffff'::bytea || string_agg('\x18ff'::bytea, '') FROM generate_series(1, 65535)));
SELECT sum(cbor_int(value)), max(ordinal) FROM cbor_each((SELECT '\x9a00010001'::bytea || string_agg(set_byte('\x00', 0, n % 24), '' ORDER BY n) FROM generate_series(1, 65537) n));
SELECT doc, value FROM (VALUES ('\x8101'::bytea), ('\x820203')) v (doc), cbor_each(doc) ORDER BY value DESC LIMIT 2;
SELECT count(*) FROM cbor_each('\xf93e00');

-- items from values
SELECT cbor_array(), cbor_map(), cbor_array(1, -500, 9223372036854775807, (-9223372036854775808)::bigint, 2::smallint, 'ü', 'a'::varchar, NULL, true, false);
SELECT cbor_map('Fun', true, 'Amt', -2), cbor_map(4, 1444064944, 1, 'coap://as.example.com'), cbor_map(true, 1, cbor_array(1), cbor_map());
SELECT cbor_array(cbor_byte_string('\x0b71'), cbor_item('\x9f01ff'), cbor_get('\xa1018102', 1), '\x00'::cbor, cbor_map('a', cbor_array('b')));
SELECT cbor_array(VARIADIC ARRAY[1, 2, NULL]), cbor_array(VARIADIC ARRAY[cbor_item('\x01'), cbor_item('\x8100')]), cbor_map(VARIADIC ARRAY['a', 'b']), cbor_array(VARIADIC NULL::int[]) IS NULL AS none;
SELECT cbor_array((SELECT string_agg('x', '') FROM generate_series(1, 23))), substr(cbor_array(repeat('x', 65536)), 1, 7), length(cbor_array(repeat('x', 65536)));
SELECT cbor_diagnostic(cbor_map(VARIADIC array_agg(n))) = '{' || string_agg(n || ': ' || n + 1, ', ' ORDER BY n) FILTER (WHERE n % 2 = 0) || '}' AS is_sorted
    FROM (SELECT n FROM generate_series(0, 999) n) v;
SELECT cbor_map(1, 2, 1, 3);
\echo :LAST_ERROR_SQLSTATE
SELECT cbor_map(1);
SELECT cbor_map(NULL, 1);
\echo :LAST_ERROR_SQLSTATE
SELECT cbor_array('\x0b71'::bytea);
\echo :LAST_ERROR_SQLSTATE
SELECT cbor_array(1.5);
SELECT cbor_array(1::real);

-- a domain
SELECT '\x1800'::cbor;
\echo :LAST_ERROR_SQLSTATE
SELECT cbor_item('\x1800'), '\x00'::cbor;
-- in the other order
SELECT '\xa22000186400'::cbor;
SELECT cbor_is_canonical(cbor_get('\xa200a1200001a21864002000', 1)), pg_typeof(cbor_get('\xa10001', 0)), pg_typeof(cbor_int('\x00'));
CREATE TABLE items (doc cbor NOT NULL);
INSERT INTO items VALUES ('\x1800');
INSERT INTO items VALUES (NULL);
INSERT INTO items SELECT cbor_map(1, 'as', 4, 1000 * n) FROM generate_series(1, 10000) n;

-- an index on a number sorts as numbers do: claims that have expired
CREATE INDEX items_expires ON items (cbor_int(doc, 4));
ANALYZE items;
EXPLAIN (COSTS OFF) SELECT count(*) FROM items WHERE cbor_int(doc, 4) < 99000;
SELECT count(*), min(cbor_int(doc, 4)), max(cbor_int(doc, 4)) FROM items WHERE cbor_int(doc, 4) < 99000;

-- more bytes than the limit: a refusal
SELECT cbor_array(repeat('x', 33554432));
SELECT length(cbor_array(repeat('x', 33554426)));
SELECT cbor_byte_string(convert_to(repeat('x', 33554428), 'UTF8'));
SELECT cbor_diagnostic('\x9f'::bytea || convert_to(repeat(repeat('0', 1024), 524288), 'UTF8'));
\echo :LAST_ERROR_SQLSTATE
CREATE TABLE long AS SELECT '\x9f'::bytea || convert_to(repeat(repeat('0', 1000), 40000), 'UTF8') AS doc;
SELECT cbor_refusal(doc), cbor_is_valid(doc), cbor_is_canonical(doc) FROM long;
SELECT cbor_canonical(doc) FROM long;
\echo :LAST_ERROR_SQLSTATE
SELECT cbor_diagnostic(doc) FROM long;
\echo :LAST_ERROR_SQLSTATE
SELECT cbor_get(doc, 1) FROM long;
SELECT cbor_same(doc, doc) FROM long;
DROP TABLE long;
