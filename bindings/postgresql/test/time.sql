-- 1 MiB that a sender chose costs at most five times what harmless keys cost, and 1 KiB at most a millisecond more than its
-- check. A row for each call; an error if one costs more. Other processes may run as well. So a cost is the processor time of
-- the server's process, the least of some turns.
CREATE EXTENSION naltvigo;
\pset tuples_only on
\pset format unaligned
CREATE FUNCTION text_of(length int, n int) RETURNS bytea LANGUAGE sql AS
    $$ SELECT '\x7a'::bytea || int4send(length + 8) || convert_to(repeat('x', length) || lpad(n::text, 8, '0'), 'UTF8') $$;
-- a map whose head has four bytes for the number of pairs
CREATE FUNCTION map_of(keys bytea[]) RETURNS bytea LANGUAGE sql AS
    $$ SELECT '\xba'::bytea || int4send(cardinality(keys)) || string_agg(key || '\x00', ''::bytea ORDER BY ordinality) FROM unnest(keys) WITH ORDINALITY u (key) $$;
CREATE FUNCTION times(n int, hex text) RETURNS bytea LANGUAGE sql AS $$ SELECT decode(repeat(hex, n), 'hex') $$;
CREATE TABLE item AS
    SELECT 'harmless' AS name, map_of(array_agg('\x1b'::bytea || int8send(hashint8extended(n, 1)))) AS doc FROM generate_series(1, 100000) n
    UNION ALL SELECT 'a long start', map_of(array_agg(text_of(1000, n))) FROM generate_series(1, 1000) n
    UNION ALL SELECT 'a very long start', map_of(array_agg(text_of(60000, n))) FROM generate_series(1, 17) n
    UNION ALL SELECT 'the last key first', map_of(array_agg('\x1a'::bytea || int4send(200000 - n))) FROM generate_series(1, 170000) n
    UNION ALL SELECT 'towers', map_of(array_agg(decode(repeat('a1', 200) || '1a', 'hex') || int4send(n) || decode(repeat('00', 200), 'hex'))) FROM generate_series(1, 2500) n
    UNION ALL SELECT 'an array', '\x9a00100000'::bytea || decode(repeat('00', 1048576), 'hex')
    UNION ALL SELECT 'deep arrays', '\x990fa0'::bytea || decode(repeat(repeat('81', 250) || '00', 4000), 'hex');
ALTER TABLE item ALTER doc SET STORAGE EXTERNAL;
-- Linux counts the nanoseconds on a processor in schedstat, up to now after a read of stat; elsewhere the clock has to do. In us.
CREATE FUNCTION spent() RETURNS float8 LANGUAGE plpgsql AS $$
BEGIN
    PERFORM pg_read_file('/proc/self/stat', 0, 1000, true);
    RETURN coalesce(split_part(pg_read_file('/proc/self/schedstat', 0, 1000, true), ' ', 1)::float8 / 1000, extract(epoch FROM clock_timestamp()) * 1e6);
END $$;
CREATE FUNCTION cost(call text, doc bytea, turns int) RETURNS float8 LANGUAGE plpgsql AS $$
DECLARE began float8; least_yet float8 := 'infinity';
BEGIN
    FOR turn IN 1..turns LOOP
        began := spent();
        EXECUTE 'SELECT ' || call USING doc;
        least_yet := least(least_yet, spent() - began);
    END LOOP;
    RETURN least_yet;
END $$;
CREATE TABLE call AS SELECT call FROM unnest(ARRAY['cbor_canonical($1)', 'cbor_diagnostic($1)', 'cbor_same($1, $1)',
    'cbor_get($1, 1000000)', 'cbor_get($1, repeat(''x'', 60008))', 'cbor_int($1, 0, 1, 2)', 'cbor_array(cbor_item($1), cbor_item($1))', 'cbor_map(1, cbor_item($1))',
    'count(*), sum(length(value)) FROM cbor_each($1)']) call;
-- for 1 MiB; the harmless one next to each other
CREATE TABLE spent AS SELECT call, chosen.name, cost(call, chosen.doc, 3) * 1048576 / length(chosen.doc) AS chosen, cost(call, harmless.doc, 3) * 1048576 / length(harmless.doc) AS harmless
    FROM call, item chosen, item harmless WHERE harmless.name = 'harmless' AND chosen.name <> 'harmless';
SELECT call || ': chosen at most ' || round(max(chosen)) || ' us, harmless ' || round(min(harmless)) || ' us' FROM spent GROUP BY call ORDER BY call;
-- again if other processes disturbed it
UPDATE spent SET chosen = cost(call, mine.doc, 9) * 1048576 / length(mine.doc), harmless = cost(call, other.doc, 9) * 1048576 / length(other.doc)
    FROM item mine, item other WHERE chosen >= 5 * harmless AND mine.name = spent.name AND other.name = 'harmless';
SELECT count(*) = 0 AS is_well FROM spent WHERE chosen >= 5 * harmless \gset
\if :is_well
\else
    SELECT call || ' of ' || name || ': ' || round(chosen) || ' us, harmless ' || round(harmless) || ' us' FROM spent WHERE chosen >= 5 * harmless;
    DO $$ BEGIN RAISE 'what a sender chose costs more than five times as much'; END $$;
\endif
CREATE TABLE small AS
    SELECT 'arrays' AS name, times(255, '81') || '\x00' AS doc
    UNION ALL SELECT 'tags', times(255, 'c1') || '\x00'
    UNION ALL SELECT 'values', times(255, 'a100') || '\x00'
    UNION ALL SELECT 'keys', times(255, 'a1') || times(256, '00')
    UNION ALL SELECT 'an array', '\x9f'::bytea || times(1000, '00') || '\xff'
    UNION ALL SELECT 'integers', map_of(array_agg('\x1a'::bytea || int4send(200000 - n))) FROM generate_series(1, 170) n;
-- a millisecond; or on a slower processor, what takes one here: 40 checks of an array of 1,000 integers
SELECT greatest(1000, 40 * cost('cbor_is_valid($1)', doc, 50)) AS millisecond FROM small WHERE name = 'an array' \gset
CREATE TABLE beyond AS SELECT call, name, cost(call, doc, 50) - cost('cbor_is_valid($1)', doc, 50) AS us FROM small,
    (SELECT call FROM call UNION ALL SELECT 'cbor_get($1' || repeat(', 0', 99) || ')') call;
SELECT '1 KiB: at most ' || round(max(us)) || ' us more than its check' FROM beyond;
SELECT max(us) < :millisecond AS is_well FROM beyond \gset
\if :is_well
\else
    SELECT call || ' of ' || name || ': ' || round(us) || ' us' FROM beyond WHERE us >= :millisecond;
    DO $$ BEGIN RAISE '1 KiB costs more than a millisecond beyond its check'; END $$;
\endif
