-- a constraint, a generated column, an index on an address and one on a key
CREATE TABLE doc (
    doc bytea NOT NULL CHECK (cbor_is_canonical(doc)),
    issuer text GENERATED ALWAYS AS (cbor_diagnostic(cbor_get(doc, 1))) STORED
);
CREATE UNIQUE INDEX doc_address ON doc (sha256(doc));
CREATE INDEX doc_expires ON doc (cbor_get(doc, 4));
-- {1: "a", 4: 2000}
INSERT INTO doc VALUES (cbor_canonical('\xbf041907d0016161ff')) RETURNING doc, issuer;
INSERT INTO doc VALUES ('\xbf041907d0016161ff');
INSERT INTO doc VALUES ('\xa2016161041907d0');
INSERT INTO doc VALUES (cbor_canonical('\xa2041907d0016161')) ON CONFLICT DO NOTHING;
INSERT INTO doc SELECT cbor_canonical('\xbf041a'::bytea || int4send(n) || '\x016162ff') FROM generate_series(100000, 109999) n;
SELECT count(*), count(DISTINCT issuer) FROM doc;
ANALYZE doc;
EXPLAIN (COSTS OFF) SELECT count(*) FROM doc WHERE cbor_get(doc, 4) = cbor_canonical('\x1a000186a1');
SELECT cbor_diagnostic(doc) FROM doc WHERE cbor_get(doc, 4) = cbor_canonical('\x1a000186a1');
-- a generated column is made before the constraint is checked, so its error comes first
INSERT INTO doc VALUES ('\xf93e00');
-- NULL passes a constraint: NOT NULL goes with it
CREATE TABLE loose (doc bytea CHECK (cbor_is_canonical(doc)));
INSERT INTO loose VALUES (NULL);
SELECT count(*) FROM loose;
DROP TABLE loose;
