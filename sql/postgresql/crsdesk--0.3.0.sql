/* The extension crsdesk of PostgreSQL: whether two texts (WKT2, ISO 19162:2019) spell the same coordinate reference
   system, and each in one canonical spelling. docs/SQL.md says what each function answers. */
\echo Use "CREATE EXTENSION crsdesk" to load this file. \quit

-- A unit of COST is some 25 to 50 ns on the machines that this was tried on; these are of texts of a kilobyte.

-- the canonical text; NULL of a text that spells no CRS
CREATE FUNCTION crs_canon(wkt text, level text DEFAULT 'full') RETURNS text
    AS 'MODULE_PATHNAME', 'crsdesk_pg_canon_text'
    LANGUAGE C IMMUTABLE STRICT PARALLEL SAFE COST 300;

CREATE FUNCTION crs_canon(wkt bytea, level text DEFAULT 'full') RETURNS text
    AS 'MODULE_PATHNAME', 'crsdesk_pg_canon_bytea'
    LANGUAGE C IMMUTABLE STRICT PARALLEL SAFE COST 300;

-- the SHA-256 of the canonical text in hexadecimal; NULL of a text that spells no CRS
CREATE FUNCTION crs_digest(wkt text, level text DEFAULT 'full') RETURNS text
    AS 'MODULE_PATHNAME', 'crsdesk_pg_digest_text'
    LANGUAGE C IMMUTABLE STRICT PARALLEL SAFE COST 400;

CREATE FUNCTION crs_digest(wkt bytea, level text DEFAULT 'full') RETURNS text
    AS 'MODULE_PATHNAME', 'crsdesk_pg_digest_bytea'
    LANGUAGE C IMMUTABLE STRICT PARALLEL SAFE COST 400;

-- geodetic, geographic, projected, vertical or compound; NULL of a text that spells no CRS
CREATE FUNCTION crs_kind(wkt text) RETURNS text
    AS 'MODULE_PATHNAME', 'crsdesk_pg_kind_text'
    LANGUAGE C IMMUTABLE STRICT PARALLEL SAFE COST 150;

CREATE FUNCTION crs_kind(wkt bytea) RETURNS text
    AS 'MODULE_PATHNAME', 'crsdesk_pg_kind_bytea'
    LANGUAGE C IMMUTABLE STRICT PARALLEL SAFE COST 150;

-- why a text spells no CRS, as: refused 7 UnexpectedEnd at 11; NULL of one that spells one
CREATE FUNCTION crs_refusal(wkt text) RETURNS text
    AS 'MODULE_PATHNAME', 'crsdesk_pg_refusal_text'
    LANGUAGE C IMMUTABLE STRICT PARALLEL SAFE COST 150;

CREATE FUNCTION crs_refusal(wkt bytea) RETURNS text
    AS 'MODULE_PATHNAME', 'crsdesk_pg_refusal_bytea'
    LANGUAGE C IMMUTABLE STRICT PARALLEL SAFE COST 150;

-- accepted and the kind, or in some lines why a text spells no CRS
CREATE FUNCTION crs_explain(wkt text) RETURNS text
    AS 'MODULE_PATHNAME', 'crsdesk_pg_explain_text'
    LANGUAGE C IMMUTABLE STRICT PARALLEL SAFE COST 300;

CREATE FUNCTION crs_explain(wkt bytea) RETURNS text
    AS 'MODULE_PATHNAME', 'crsdesk_pg_explain_bytea'
    LANGUAGE C IMMUTABLE STRICT PARALLEL SAFE COST 300;

-- whether both spell the same CRS; NULL where either spells none
CREATE FUNCTION crs_same(a text, b text, level text DEFAULT 'full') RETURNS boolean
    AS 'MODULE_PATHNAME', 'crsdesk_pg_same_text_text'
    LANGUAGE C IMMUTABLE STRICT PARALLEL SAFE COST 500;

CREATE FUNCTION crs_same(a text, b bytea, level text DEFAULT 'full') RETURNS boolean
    AS 'MODULE_PATHNAME', 'crsdesk_pg_same_text_bytea'
    LANGUAGE C IMMUTABLE STRICT PARALLEL SAFE COST 500;

CREATE FUNCTION crs_same(a bytea, b text, level text DEFAULT 'full') RETURNS boolean
    AS 'MODULE_PATHNAME', 'crsdesk_pg_same_bytea_text'
    LANGUAGE C IMMUTABLE STRICT PARALLEL SAFE COST 500;

CREATE FUNCTION crs_same(a bytea, b bytea, level text DEFAULT 'full') RETURNS boolean
    AS 'MODULE_PATHNAME', 'crsdesk_pg_same_bytea_bytea'
    LANGUAGE C IMMUTABLE STRICT PARALLEL SAFE COST 500;

-- the path of the first part that differs, or the word same; NULL where either spells none
CREATE FUNCTION crs_difference(a text, b text, level text DEFAULT 'full') RETURNS text
    AS 'MODULE_PATHNAME', 'crsdesk_pg_difference_text_text'
    LANGUAGE C IMMUTABLE STRICT PARALLEL SAFE COST 500;

CREATE FUNCTION crs_difference(a text, b bytea, level text DEFAULT 'full') RETURNS text
    AS 'MODULE_PATHNAME', 'crsdesk_pg_difference_text_bytea'
    LANGUAGE C IMMUTABLE STRICT PARALLEL SAFE COST 500;

CREATE FUNCTION crs_difference(a bytea, b text, level text DEFAULT 'full') RETURNS text
    AS 'MODULE_PATHNAME', 'crsdesk_pg_difference_bytea_text'
    LANGUAGE C IMMUTABLE STRICT PARALLEL SAFE COST 500;

CREATE FUNCTION crs_difference(a bytea, b bytea, level text DEFAULT 'full') RETURNS text
    AS 'MODULE_PATHNAME', 'crsdesk_pg_difference_bytea_bytea'
    LANGUAGE C IMMUTABLE STRICT PARALLEL SAFE COST 500;

-- all parts that differ, [{"path", "first", "second"}, ..] with null for what is in one alone; NULL where either
-- spells none
CREATE FUNCTION crs_differences(a text, b text, level text DEFAULT 'full') RETURNS jsonb
    AS 'MODULE_PATHNAME', 'crsdesk_pg_differences_text_text'
    LANGUAGE C IMMUTABLE STRICT PARALLEL SAFE COST 500;

CREATE FUNCTION crs_differences(a text, b bytea, level text DEFAULT 'full') RETURNS jsonb
    AS 'MODULE_PATHNAME', 'crsdesk_pg_differences_text_bytea'
    LANGUAGE C IMMUTABLE STRICT PARALLEL SAFE COST 500;

CREATE FUNCTION crs_differences(a bytea, b text, level text DEFAULT 'full') RETURNS jsonb
    AS 'MODULE_PATHNAME', 'crsdesk_pg_differences_bytea_text'
    LANGUAGE C IMMUTABLE STRICT PARALLEL SAFE COST 500;

CREATE FUNCTION crs_differences(a bytea, b bytea, level text DEFAULT 'full') RETURNS jsonb
    AS 'MODULE_PATHNAME', 'crsdesk_pg_differences_bytea_bytea'
    LANGUAGE C IMMUTABLE STRICT PARALLEL SAFE COST 500;

-- the form of a text under rules; NULL of a text that spells no CRS
CREATE FUNCTION crs_canon(wkt text, level text, rules text) RETURNS text
    AS 'MODULE_PATHNAME', 'crsdesk_pg_canon_under_text'
    LANGUAGE C IMMUTABLE STRICT PARALLEL SAFE COST 800;

CREATE FUNCTION crs_canon(wkt bytea, level text, rules text) RETURNS text
    AS 'MODULE_PATHNAME', 'crsdesk_pg_canon_under_bytea'
    LANGUAGE C IMMUTABLE STRICT PARALLEL SAFE COST 800;

-- the SHA-256 of the form under rules in hexadecimal; NULL of a text that spells no CRS
CREATE FUNCTION crs_digest(wkt text, level text, rules text) RETURNS text
    AS 'MODULE_PATHNAME', 'crsdesk_pg_digest_under_text'
    LANGUAGE C IMMUTABLE STRICT PARALLEL SAFE COST 1200;

CREATE FUNCTION crs_digest(wkt bytea, level text, rules text) RETURNS text
    AS 'MODULE_PATHNAME', 'crsdesk_pg_digest_under_bytea'
    LANGUAGE C IMMUTABLE STRICT PARALLEL SAFE COST 1200;

-- whether both have one form under rules; NULL where either spells no CRS
CREATE FUNCTION crs_same(a text, b text, level text, rules text) RETURNS boolean
    AS 'MODULE_PATHNAME', 'crsdesk_pg_same_under_text_text'
    LANGUAGE C IMMUTABLE STRICT PARALLEL SAFE COST 1000;

CREATE FUNCTION crs_same(a text, b bytea, level text, rules text) RETURNS boolean
    AS 'MODULE_PATHNAME', 'crsdesk_pg_same_under_text_bytea'
    LANGUAGE C IMMUTABLE STRICT PARALLEL SAFE COST 1000;

CREATE FUNCTION crs_same(a bytea, b text, level text, rules text) RETURNS boolean
    AS 'MODULE_PATHNAME', 'crsdesk_pg_same_under_bytea_text'
    LANGUAGE C IMMUTABLE STRICT PARALLEL SAFE COST 1000;

CREATE FUNCTION crs_same(a bytea, b bytea, level text, rules text) RETURNS boolean
    AS 'MODULE_PATHNAME', 'crsdesk_pg_same_under_bytea_bytea'
    LANGUAGE C IMMUTABLE STRICT PARALLEL SAFE COST 1000;

-- the path of the first part in which the forms differ, or the word same; NULL where either spells no CRS
CREATE FUNCTION crs_difference(a text, b text, level text, rules text) RETURNS text
    AS 'MODULE_PATHNAME', 'crsdesk_pg_difference_under_text_text'
    LANGUAGE C IMMUTABLE STRICT PARALLEL SAFE COST 1000;

CREATE FUNCTION crs_difference(a text, b bytea, level text, rules text) RETURNS text
    AS 'MODULE_PATHNAME', 'crsdesk_pg_difference_under_text_bytea'
    LANGUAGE C IMMUTABLE STRICT PARALLEL SAFE COST 1000;

CREATE FUNCTION crs_difference(a bytea, b text, level text, rules text) RETURNS text
    AS 'MODULE_PATHNAME', 'crsdesk_pg_difference_under_bytea_text'
    LANGUAGE C IMMUTABLE STRICT PARALLEL SAFE COST 1000;

CREATE FUNCTION crs_difference(a bytea, b bytea, level text, rules text) RETURNS text
    AS 'MODULE_PATHNAME', 'crsdesk_pg_difference_under_bytea_bytea'
    LANGUAGE C IMMUTABLE STRICT PARALLEL SAFE COST 1000;

-- all parts in which the forms differ; NULL where either spells no CRS
CREATE FUNCTION crs_differences(a text, b text, level text, rules text) RETURNS jsonb
    AS 'MODULE_PATHNAME', 'crsdesk_pg_differences_under_text_text'
    LANGUAGE C IMMUTABLE STRICT PARALLEL SAFE COST 1000;

CREATE FUNCTION crs_differences(a text, b bytea, level text, rules text) RETURNS jsonb
    AS 'MODULE_PATHNAME', 'crsdesk_pg_differences_under_text_bytea'
    LANGUAGE C IMMUTABLE STRICT PARALLEL SAFE COST 1000;

CREATE FUNCTION crs_differences(a bytea, b text, level text, rules text) RETURNS jsonb
    AS 'MODULE_PATHNAME', 'crsdesk_pg_differences_under_bytea_text'
    LANGUAGE C IMMUTABLE STRICT PARALLEL SAFE COST 1000;

CREATE FUNCTION crs_differences(a bytea, b bytea, level text, rules text) RETURNS jsonb
    AS 'MODULE_PATHNAME', 'crsdesk_pg_differences_under_bytea_bytea'
    LANGUAGE C IMMUTABLE STRICT PARALLEL SAFE COST 1000;

-- the version of crsdesk, as: 0.3.0
CREATE FUNCTION crs_version() RETURNS text
    AS 'MODULE_PATHNAME', 'crsdesk_pg_version'
    LANGUAGE C IMMUTABLE STRICT PARALLEL SAFE COST 1;
