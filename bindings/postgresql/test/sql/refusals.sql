-- errors: the SQLSTATE, and the reason and offset in the detail
SELECT cbor_canonical('\x81f93e00');
\echo :LAST_ERROR_SQLSTATE
SELECT cbor_diagnostic('\x61ff');
SELECT cbor_get('\xa201000100', 1);
SELECT cbor_same('\x00', '\xf93e00');
SELECT cbor_same('\xf93e00', '\x00');
SELECT cbor_is_canonical('\x00', 'none');
\echo :LAST_ERROR_SQLSTATE
SELECT cbor_canonical('\x00', 'lengthy');
-- a key of another type, also where an earlier one is missing
SELECT cbor_get('\xa0', 1, true);
\echo :LAST_ERROR_SQLSTATE
SELECT cbor_get('\xa0', '\x00'::bytea);
SELECT cbor_get('\xa0');
-- {"u": [0, 1.5]}: a sentence, an advice and a path
SELECT cbor_explain('\xa161758200f93e00'), cbor_explain('\x00') IS NULL AS accepted, cbor_explain(NULL) IS NULL AS none;
SELECT cbor_get('\xa161758200f93e00', 'u');
-- a path longer than the first space for it
SELECT length(split_part(cbor_explain(decode(repeat('a1783c' || repeat('6b', 60), 250) || 'f90000', 'hex')), E'\n', 3));
-- paths of each length, so that an explanation fills 512 bytes, or one more or less
SELECT count(*) FROM generate_series(0, 600) n, LATERAL (SELECT n / 43 AS levels, 1 + n % 43 AS last) of
    WHERE split_part(cbor_explain(decode(repeat('a17828' || repeat('6b', 40), levels) || 'a178' || lpad(to_hex(last), 2, '0') || repeat('6b', last) || 'f90000', 'hex')), E'\n', 3)
        = '$' || repeat('."' || repeat('k', 40) || '"', levels) || '."' || repeat('k', last) || '"';
-- ten thousand refusals, each in a subtransaction
DO $$
DECLARE n int := 0;
BEGIN
    FOR i IN 1..10000 LOOP
        BEGIN
            PERFORM cbor_canonical(decode(repeat('a1', 30) || repeat('00', 3) || 'ff', 'hex'));
        EXCEPTION WHEN invalid_binary_representation THEN n := n + 1;
        END;
    END LOOP;
    RAISE NOTICE '% refused', n;
END $$;
