\echo Use "CREATE EXTENSION access_base" to load this file. \quit
-- Functions and a domain, and nothing that holds data: dropping the extension is refused while a table uses the domain.

CREATE FUNCTION is_sound(base bytea) RETURNS boolean
  AS 'MODULE_PATHNAME', 'access_base_pg_is_sound' LANGUAGE C IMMUTABLE STRICT PARALLEL SAFE COST 100;
COMMENT ON FUNCTION is_sound(bytea) IS 'whether the bytes are a sound base';

CREATE DOMAIN base AS bytea CONSTRAINT sound CHECK (access_base.is_sound(VALUE));
COMMENT ON DOMAIN base IS 'the 27,936 bytes of a sound base';

CREATE FUNCTION empty() RETURNS bytea
  AS 'MODULE_PATHNAME', 'access_base_pg_empty' LANGUAGE C IMMUTABLE STRICT PARALLEL SAFE;
COMMENT ON FUNCTION empty() IS 'a base with nothing in it';

CREATE FUNCTION put(base bytea, line text, OUT reply text, OUT after bytea)
  AS 'MODULE_PATHNAME', 'access_base_pg_put' LANGUAGE C IMMUTABLE STRICT PARALLEL SAFE COST 500;
COMMENT ON FUNCTION put(bytea, text) IS 'one line of the text session put to a base: the reply, and the base after it';

CREATE FUNCTION may(base bytea, subject bigint, mode bigint, object bigint, instant bigint) RETURNS boolean
  AS 'MODULE_PATHNAME', 'access_base_pg_may' LANGUAGE C IMMUTABLE STRICT PARALLEL SAFE COST 500;
COMMENT ON FUNCTION may(bytea, bigint, bigint, bigint, bigint) IS 'MAY: whether the subject may do it to the object at the instant';

CREATE FUNCTION runs(base bytea, subject bigint, mode bigint, object bigint) RETURNS int8multirange
  AS 'MODULE_PATHNAME', 'access_base_pg_runs' LANGUAGE C IMMUTABLE STRICT PARALLEL SAFE COST 500;
COMMENT ON FUNCTION runs(bytea, bigint, bigint, bigint) IS 'WHEN: the instants where MAY says yes; a run to infinity has no upper bound';

CREATE FUNCTION sheet(base bytea, object bigint) RETURNS text
  AS 'MODULE_PATHNAME', 'access_base_pg_sheet' LANGUAGE C IMMUTABLE STRICT PARALLEL SAFE COST 500;
COMMENT ON FUNCTION sheet(bytea, bigint) IS 'the rights sheet of an object: a row for each authorization on it';

CREATE FUNCTION heading(
    base bytea, OUT clock bigint, OUT last_label int, OUT objects int, OUT administrators int, OUT referrers int,
    OUT authorizations int, OUT rules int) RETURNS SETOF record
  AS 'MODULE_PATHNAME', 'access_base_pg_heading' LANGUAGE C IMMUTABLE STRICT PARALLEL SAFE COST 500 ROWS 1;
COMMENT ON FUNCTION heading(bytea) IS 'the instant of the last accepted request, the last label given, and how many records there are';
CREATE FUNCTION objects(base bytea, OUT object int, OUT owner int) RETURNS SETOF record
  AS 'MODULE_PATHNAME', 'access_base_pg_objects' LANGUAGE C IMMUTABLE STRICT PARALLEL SAFE COST 500 ROWS 50;
CREATE FUNCTION administrators(base bytea, OUT object int, OUT subject int) RETURNS SETOF record
  AS 'MODULE_PATHNAME', 'access_base_pg_administrators' LANGUAGE C IMMUTABLE STRICT PARALLEL SAFE COST 500 ROWS 50;
CREATE FUNCTION referrers(base bytea, OUT object int, OUT subject int) RETURNS SETOF record
  AS 'MODULE_PATHNAME', 'access_base_pg_referrers' LANGUAGE C IMMUTABLE STRICT PARALLEL SAFE COST 500 ROWS 50;
CREATE FUNCTION authorizations(
    base bytea, OUT label int, OUT grantor int, OUT subject int, OUT object int, OUT mode int, OUT negative boolean,
    OUT transferable boolean, OUT granted bigint, OUT starts bigint, OUT ends bigint) RETURNS SETOF record
  AS 'MODULE_PATHNAME', 'access_base_pg_authorizations' LANGUAGE C IMMUTABLE STRICT PARALLEL SAFE COST 500 ROWS 300;
CREATE FUNCTION rules(
    base bytea, OUT label int, OUT author int, OUT left_subject int, OUT left_mode int, OUT left_object int,
    OUT left_negative boolean, OUT operator int, OUT right_subject int, OUT right_mode int, OUT right_object int,
    OUT right_negative boolean, OUT right_grantor int, OUT right_option int, OUT starts bigint, OUT ends bigint) RETURNS SETOF record
  AS 'MODULE_PATHNAME', 'access_base_pg_rules' LANGUAGE C IMMUTABLE STRICT PARALLEL SAFE COST 500 ROWS 10;
COMMENT ON FUNCTION rules(bytea) IS 'the rules; 0 is the star for a subject, mode or grantor; right_option 0 without, 1 with, 2 either';
