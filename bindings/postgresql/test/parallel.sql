-- Claims without lengths, as many as the variable `rows` says: their canonical bytes by one process, and with two workers.
-- Prints how long each took; a difference is an error.
CREATE EXTENSION naltvigo;
CREATE TABLE claim AS
    SELECT '\xbf041a'::bytea || int4send(n + 65536) || '\x61611a' || int4send(2147483647 - n) || '\x016561732e6572ff' AS doc
    FROM generate_series(1, :rows) n;
-- the planner gives a small table fewer
ALTER TABLE claim SET (parallel_workers = 2);
ANALYZE claim;
\pset tuples_only on
\pset format unaligned
SELECT count(*) || ' claims of ' || min(length(doc)) || ' bytes' FROM claim;

CREATE VIEW result AS
    SELECT count(*) AS valid, count(*) FILTER (WHERE cbor_is_canonical(cbor_canonical(doc))) AS canonical,
        sum(hashtextextended(encode(cbor_canonical(doc), 'hex'), 0)) AS digest, sum(cbor_int(doc, 4)) AS expires
    FROM claim WHERE cbor_is_valid(doc) AND NOT cbor_is_canonical(doc);
-- by \gset, since INSERT, and SELECT INTO of plpgsql, never run in parallel
SELECT clock_timestamp() AS began \gset
SET max_parallel_workers_per_gather = 0;
SELECT * FROM result \gset one_
SELECT '0 workers: ' || round(extract(epoch FROM clock_timestamp() - :'began') * 1000) || ' ms';
SELECT clock_timestamp() AS began \gset
SET max_parallel_workers_per_gather = 2;
SELECT * FROM result \gset two_
SELECT '2 workers: ' || round(extract(epoch FROM clock_timestamp() - :'began') * 1000) || ' ms';

-- all rows were accepted and made canonical, to the same bytes, and two workers start
CREATE FUNCTION plan() RETURNS SETOF text LANGUAGE plpgsql AS $$
BEGIN
    RETURN QUERY EXECUTE 'EXPLAIN (ANALYZE, COSTS OFF, TIMING OFF, SUMMARY OFF) SELECT * FROM result';
END $$;
SELECT count(*) = 2 AS has_two_workers FROM plan() line WHERE line ~ 'Workers Launched: 2|Parallel Seq Scan' \gset
SELECT (:one_valid, :one_canonical, :one_digest, :one_expires) = (:two_valid, :two_canonical, :two_digest, :two_expires) AND :one_valid = :rows
    AND :one_canonical = :rows AS is_same \gset
\if :has_two_workers
\else
    DO $$ BEGIN RAISE 'two workers are not started'; END $$;
\endif
\if :is_same
\else
    DO $$ BEGIN RAISE 'the results differ'; END $$;
\endif

-- a table with the constraint, and a unique index on the address
SELECT clock_timestamp() AS began \gset
CREATE TABLE kept (doc bytea NOT NULL CHECK (cbor_is_canonical(doc)));
INSERT INTO kept SELECT cbor_canonical(doc) FROM claim;
SELECT 'INSERT with the constraint: ' || round(extract(epoch FROM clock_timestamp() - :'began') * 1000) || ' ms';
SELECT clock_timestamp() AS began \gset
CREATE UNIQUE INDEX kept_address ON kept (sha256(doc));
SELECT 'unique index on sha256(doc): ' || round(extract(epoch FROM clock_timestamp() - :'began') * 1000) || ' ms';
