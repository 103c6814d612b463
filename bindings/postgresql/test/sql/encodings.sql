-- a database in another encoding, and an extension that is created without a superuser
CREATE ROLE naltvigo_plain;
CREATE DATABASE naltvigo_latin1 ENCODING 'LATIN1' LC_COLLATE 'C' LC_CTYPE 'C' TEMPLATE template0;
GRANT CREATE ON DATABASE naltvigo_latin1 TO naltvigo_plain;
\c naltvigo_latin1
SET client_encoding = 'UTF8';
SET ROLE naltvigo_plain;
CREATE EXTENSION naltvigo;
RESET ROLE;
-- {"ü": 7}: texts are converted both ways, bytes are not
SELECT cbor_get('\xa162c3bc07', 'ü'), length(cbor_diagnostic('\x62c3bc')), cbor_diagnostic('\xa162c3bc07'), cbor_canonical('\x7f62c3bcff');
-- a letter that the database does not have
SELECT cbor_diagnostic('\x63e6b0b4');
\echo :LAST_ERROR_SQLSTATE
SELECT cbor_is_valid('\x63e6b0b4'), cbor_canonical('\x7f63e6b0b4ff');
-- a path with such a character is left out
SELECT split_part(cbor_explain('\xa163e6b0b4f90000'), E'\n', 3), split_part(cbor_explain('\xa16175f90000'), E'\n', 3);
SELECT cbor_canonical('\xa163e6b0b4f90000');
\c contrib_regression
DROP DATABASE naltvigo_latin1;
DROP ROLE naltvigo_plain;
