-- The process of this session may use 32 MiB more than it has: a call that needs more fails, the session continues, and the
-- same call succeeds once memory is there.
\pset tuples_only on
\pset format unaligned
CREATE TEMP TABLE held AS
    SELECT '\xba000f4240'::bytea || string_agg('\x1a'::bytea || int4send(n) || '\x00', '' ORDER BY n DESC) AS map
    FROM generate_series(100001, 1100000) n;
SELECT pg_backend_pid() AS pid \gset
\setenv PID :pid
\! prlimit --pid $PID --as=$((4096 * $(cut -d' ' -f1 /proc/$PID/statm) + (32 << 20))):unlimited
SELECT length(cbor_canonical(map)) FROM held;
SELECT cbor_is_canonical(cbor_canonical('\x1800'));
\! prlimit --pid $PID --as=unlimited
SELECT length(cbor_canonical(map)) FROM held;

-- refusals and results leave no memory allocated
CREATE FUNCTION pg_temp.turns(count int) RETURNS int LANGUAGE plpgsql AS $$
DECLARE refused int := 0;
BEGIN
    FOR i IN 1..count LOOP
        PERFORM cbor_canonical('\x9f01ff'), cbor_diagnostic('\x8101'), cbor_get('\xbf0001ff', 'a'), cbor_get('\xa10001', 0);
        BEGIN
            PERFORM cbor_canonical('\x81f93e00');
        EXCEPTION WHEN invalid_binary_representation THEN refused := refused + 1;
        END;
    END LOOP;
    RETURN refused;
END $$;
SELECT pg_temp.turns(10000);
\set before `awk '/VmRSS/ { print $2 }' /proc/$PID/status`
SELECT pg_temp.turns(100000);
\set after `awk '/VmRSS/ { print $2 }' /proc/$PID/status`
SELECT :after - :before < 512 AS is_flat;
