\echo Use "CREATE EXTENSION naltvigo" to load this file. \quit

-- A cost of 1 is that of a simple operator, as the planner counts.

CREATE FUNCTION cbor_canonical(item bytea, key_order text DEFAULT 'bytewise') RETURNS bytea
    AS 'MODULE_PATHNAME' LANGUAGE C IMMUTABLE STRICT PARALLEL SAFE COST 10;
COMMENT ON FUNCTION cbor_canonical IS 'the canonical bytes of a CBOR item';

CREATE FUNCTION cbor_is_canonical(item bytea, key_order text DEFAULT 'bytewise') RETURNS boolean
    AS 'MODULE_PATHNAME' LANGUAGE C IMMUTABLE STRICT PARALLEL SAFE COST 5;
COMMENT ON FUNCTION cbor_is_canonical IS 'whether these are the canonical bytes of a CBOR item';

CREATE FUNCTION cbor_is_valid(item bytea) RETURNS boolean
    AS 'MODULE_PATHNAME' LANGUAGE C IMMUTABLE STRICT PARALLEL SAFE COST 8;
COMMENT ON FUNCTION cbor_is_valid IS 'whether this is one valid CBOR item, in any encoding';

CREATE FUNCTION cbor_refusal(item bytea) RETURNS text
    AS 'MODULE_PATHNAME' LANGUAGE C IMMUTABLE STRICT PARALLEL SAFE COST 8;
COMMENT ON FUNCTION cbor_refusal IS 'why this is not a valid CBOR item; NULL if it is one';

CREATE FUNCTION cbor_explain(item bytea) RETURNS text
    AS 'MODULE_PATHNAME' LANGUAGE C IMMUTABLE STRICT PARALLEL SAFE COST 8;
COMMENT ON FUNCTION cbor_explain IS 'a sentence, an advice and a path, a line each, if this is not a valid CBOR item; else NULL';

CREATE FUNCTION cbor_same(a bytea, b bytea) RETURNS boolean
    AS 'MODULE_PATHNAME' LANGUAGE C IMMUTABLE STRICT PARALLEL SAFE COST 15;
COMMENT ON FUNCTION cbor_same IS 'whether two CBOR items have the same value';

CREATE FUNCTION cbor_diagnostic(item bytea) RETURNS text
    AS 'MODULE_PATHNAME' LANGUAGE C IMMUTABLE STRICT PARALLEL SAFE COST 20;
COMMENT ON FUNCTION cbor_diagnostic IS 'the diagnostic text of a CBOR item';

-- ---- items as a type

CREATE DOMAIN cbor AS bytea CHECK (cbor_is_canonical(VALUE));
COMMENT ON DOMAIN cbor IS 'the canonical bytes of a CBOR item, with bytewise key order';

CREATE FUNCTION cbor_item(item bytea) RETURNS cbor
    AS 'MODULE_PATHNAME' LANGUAGE C IMMUTABLE STRICT PARALLEL SAFE COST 10;
COMMENT ON FUNCTION cbor_item IS 'a CBOR item in any encoding as its canonical bytes';

-- ---- the item at a path

CREATE FUNCTION cbor_get(item bytea, VARIADIC path "any") RETURNS cbor
    AS 'MODULE_PATHNAME' LANGUAGE C IMMUTABLE STRICT PARALLEL SAFE COST 10;
COMMENT ON FUNCTION cbor_get IS 'the canonical bytes of the item at a path of keys, indices and numbers of tags';

CREATE FUNCTION cbor_int(item bytea) RETURNS bigint
    AS 'MODULE_PATHNAME' LANGUAGE C IMMUTABLE STRICT PARALLEL SAFE COST 10;
CREATE FUNCTION cbor_int(item bytea, VARIADIC path "any") RETURNS bigint
    AS 'MODULE_PATHNAME' LANGUAGE C IMMUTABLE STRICT PARALLEL SAFE COST 10;
COMMENT ON FUNCTION cbor_int(bytea) IS 'the integer that a CBOR item is';
COMMENT ON FUNCTION cbor_int(bytea, "any") IS 'the integer at a path';

CREATE FUNCTION cbor_text(item bytea) RETURNS text
    AS 'MODULE_PATHNAME' LANGUAGE C IMMUTABLE STRICT PARALLEL SAFE COST 10;
CREATE FUNCTION cbor_text(item bytea, VARIADIC path "any") RETURNS text
    AS 'MODULE_PATHNAME' LANGUAGE C IMMUTABLE STRICT PARALLEL SAFE COST 10;
COMMENT ON FUNCTION cbor_text(bytea) IS 'the text that a CBOR item is';
COMMENT ON FUNCTION cbor_text(bytea, "any") IS 'the text at a path';

CREATE FUNCTION cbor_bytes(item bytea) RETURNS bytea
    AS 'MODULE_PATHNAME' LANGUAGE C IMMUTABLE STRICT PARALLEL SAFE COST 10;
CREATE FUNCTION cbor_bytes(item bytea, VARIADIC path "any") RETURNS bytea
    AS 'MODULE_PATHNAME' LANGUAGE C IMMUTABLE STRICT PARALLEL SAFE COST 10;
COMMENT ON FUNCTION cbor_bytes(bytea) IS 'the bytes of the byte string that a CBOR item is';
COMMENT ON FUNCTION cbor_bytes(bytea, "any") IS 'the bytes of the byte string at a path';

CREATE FUNCTION cbor_bool(item bytea) RETURNS boolean
    AS 'MODULE_PATHNAME' LANGUAGE C IMMUTABLE STRICT PARALLEL SAFE COST 10;
CREATE FUNCTION cbor_bool(item bytea, VARIADIC path "any") RETURNS boolean
    AS 'MODULE_PATHNAME' LANGUAGE C IMMUTABLE STRICT PARALLEL SAFE COST 10;
COMMENT ON FUNCTION cbor_bool(bytea) IS 'false or true, if a CBOR item is one of them';
COMMENT ON FUNCTION cbor_bool(bytea, "any") IS 'false or true, if the item at a path is one of them';

CREATE FUNCTION cbor_each(item bytea) RETURNS TABLE (ordinal bigint, key cbor, value cbor)
    AS 'MODULE_PATHNAME' LANGUAGE C IMMUTABLE STRICT PARALLEL SAFE COST 10 ROWS 100;
COMMENT ON FUNCTION cbor_each IS 'the members of a CBOR array, or the pairs of a map';

-- ---- items from values

CREATE FUNCTION cbor_array() RETURNS cbor
    AS 'MODULE_PATHNAME' LANGUAGE C IMMUTABLE PARALLEL SAFE COST 10;
CREATE FUNCTION cbor_array(VARIADIC members "any") RETURNS cbor
    AS 'MODULE_PATHNAME' LANGUAGE C IMMUTABLE PARALLEL SAFE COST 10;
COMMENT ON FUNCTION cbor_array() IS 'the empty CBOR array';
COMMENT ON FUNCTION cbor_array("any") IS 'a CBOR array of these members';

CREATE FUNCTION cbor_map() RETURNS cbor
    AS 'MODULE_PATHNAME' LANGUAGE C IMMUTABLE PARALLEL SAFE COST 10;
CREATE FUNCTION cbor_map(VARIADIC pairs "any") RETURNS cbor
    AS 'MODULE_PATHNAME' LANGUAGE C IMMUTABLE PARALLEL SAFE COST 10;
COMMENT ON FUNCTION cbor_map() IS 'the empty CBOR map';
COMMENT ON FUNCTION cbor_map("any") IS 'a CBOR map of these keys and values in turn';

CREATE FUNCTION cbor_byte_string(bytes bytea) RETURNS cbor
    AS 'MODULE_PATHNAME' LANGUAGE C IMMUTABLE STRICT PARALLEL SAFE COST 10;
COMMENT ON FUNCTION cbor_byte_string IS 'a CBOR byte string of these bytes';
