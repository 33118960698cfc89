-- Blocks and their journal in PostgreSQL, 15 or newer. A superuser runs this once in a database:
--   psql -v ON_ERROR_STOP=1 -f callers/sql/postgres/schema.sql
-- Tables belong to meters_owner, who cannot log in; nobody else writes to them but through the functions below.
\set ON_ERROR_STOP on
BEGIN;
CREATE EXTENSION IF NOT EXISTS access_base;

-- Roles are shared by all databases of a server.
SELECT format('CREATE ROLE %I NOLOGIN', name)
FROM unnest(ARRAY['meters_owner', 'meters_reader', 'meters_writer', 'meters_importer']) AS name
WHERE NOT EXISTS (SELECT 1 FROM pg_roles WHERE rolname = name) \gexec
-- Whoever can become meters_owner, or owns the extension's schema, could write past the functions.
DO $$ BEGIN
  IF EXISTS (SELECT 1 FROM pg_roles WHERE rolname = 'meters_owner' AND rolcanlogin)
    OR EXISTS (SELECT 1 FROM pg_auth_members WHERE roleid = 'meters_owner'::regrole) THEN
    RAISE EXCEPTION 'role meters_owner can log in, or has members' USING HINT = 'ALTER ROLE meters_owner NOLOGIN, and take its members out';
  END IF;
  IF NOT (SELECT rolsuper FROM pg_namespace n JOIN pg_roles r ON r.oid = n.nspowner WHERE nspname = 'access_base') THEN
    RAISE EXCEPTION 'schema access_base belongs to somebody who is no superuser' USING HINT = 'drop it, and run this file again';
  END IF;
END $$;
GRANT USAGE ON SCHEMA access_base TO meters_owner, meters_reader;
GRANT meters_reader TO meters_writer;
GRANT meters_reader TO meters_importer;

CREATE SCHEMA meters AUTHORIZATION meters_owner;
SET LOCAL ROLE meters_owner;

CREATE TABLE meters.blocks (
  id int GENERATED ALWAYS AS IDENTITY PRIMARY KEY,
  name text NOT NULL UNIQUE CHECK (length(name) BETWEEN 1 AND 200 AND name !~ '[\u0001-\u001f\u007f-\u009f]'),
  unit bigint NOT NULL DEFAULT 1 CHECK (unit BETWEEN 1 AND 1099511627776),
  origin bigint NOT NULL DEFAULT 0 CHECK (origin BETWEEN -1000000000000 AND 1000000000000),
  requests bigint NOT NULL DEFAULT 0,
  initial access_base.base,
  base access_base.base NOT NULL
);
ALTER TABLE meters.blocks ALTER base SET COMPRESSION lz4, ALTER initial SET COMPRESSION lz4;
COMMENT ON COLUMN meters.blocks.unit IS 'how many seconds an instant lasts';
COMMENT ON COLUMN meters.blocks.origin IS 'where instants count from, in seconds since 1970';
COMMENT ON COLUMN meters.blocks.requests IS 'the number of the last request in the journal';
COMMENT ON COLUMN meters.blocks.initial IS 'imported bytes; NULL: the block began empty';

CREATE TABLE meters.journal (
  block int NOT NULL REFERENCES meters.blocks,
  number bigint NOT NULL,
  at timestamptz NOT NULL DEFAULT clock_timestamp(),
  line text NOT NULL,
  reply text NOT NULL,
  PRIMARY KEY (block, number)
);

CREATE TABLE meters.requesters (
  block int NOT NULL REFERENCES meters.blocks,
  role name NOT NULL,
  subject int NOT NULL CHECK (subject BETWEEN 1 AND 1023),
  PRIMARY KEY (block, role)
);
COMMENT ON TABLE meters.requesters IS 'which subject of a block a role is';

CREATE FUNCTION meters.instant(unit bigint, origin bigint) RETURNS bigint
LANGUAGE sql VOLATILE PARALLEL SAFE SET search_path = pg_catalog, pg_temp
AS $$ SELECT floor((extract(epoch FROM clock_timestamp()) - origin) / unit)::bigint $$;

CREATE VIEW meters.clocks AS SELECT id, name, unit, origin, requests, meters.instant(unit, origin) AS instant FROM meters.blocks;

-- The block's row, locked until the transaction ends; whoever comes later waits here.
CREATE FUNCTION meters.lock_block(block text) RETURNS meters.blocks
LANGUAGE plpgsql SECURITY DEFINER SET search_path = pg_catalog, pg_temp AS $$
DECLARE found_block meters.blocks;
BEGIN
  SELECT * INTO found_block FROM meters.blocks b WHERE b.name = lock_block.block FOR NO KEY UPDATE;
  IF NOT FOUND THEN
    RAISE EXCEPTION 'there is no block %', quote_nullable(lock_block.block) USING HINT = 'make it first: SELECT meters.new_block(name)';
  END IF;
  RETURN found_block;
END $$;

-- Puts whole lines to a locked block: the journal grows by each, the base is stored once, and only if one was done.
CREATE FUNCTION meters.put_lines(b meters.blocks, lines text[]) RETURNS text[]
LANGUAGE plpgsql SECURITY DEFINER SET search_path = pg_catalog, pg_temp AS $$
DECLARE
  line text; answer record; after bytea := b.base; done boolean := false;
  replies text[] := '{}'; now_at bigint := meters.instant(b.unit, b.origin);
BEGIN
  FOREACH line IN ARRAY lines LOOP
    IF line IS NULL THEN
      RAISE EXCEPTION 'a line is NULL' USING HINT = 'give one request a line, as docs/SESSION.md has it';
    END IF;
    IF line ~ '^inf ' OR coalesce(substring(line FROM '^([0-9]{1,10}) ')::bigint, 0) > now_at THEN
      RAISE EXCEPTION 'the request is ahead of the clock, and would shut out all others until then'
        USING HINT = 'give a now that has come', DETAIL = line;
    END IF;
    SELECT * INTO answer FROM access_base.put(after, line);
    IF answer.reply LIKE 'done %' THEN
      after := answer.after;
      done := true;
    END IF;
    replies := replies || answer.reply;
  END LOOP;
  INSERT INTO meters.journal(block, number, line, reply)
    SELECT b.id, b.requests + n, l, r FROM unnest(lines, replies) WITH ORDINALITY AS t(l, r, n);
  IF done THEN
    UPDATE meters.blocks SET base = after, requests = b.requests + cardinality(replies) WHERE id = b.id;
  ELSE
    UPDATE meters.blocks SET requests = b.requests + cardinality(replies) WHERE id = b.id;
  END IF;
  RETURN replies;
END $$;

-- ---- what people call
-- Requests without their now and requester: the clock is read once the block is locked, the requester is the role that
-- logged in, whatever SET ROLE says. The word now among the fields stands for that instant.
CREATE FUNCTION meters.put_many(block text, requests text[]) RETURNS text[]
LANGUAGE plpgsql SECURITY DEFINER SET search_path = pg_catalog, pg_temp AS $$
DECLARE b meters.blocks; who int; now_at bigint;
BEGIN
  IF requests IS NULL THEN
    RAISE EXCEPTION 'no request is given';
  END IF;
  b := meters.lock_block(block);
  SELECT subject INTO who FROM meters.requesters r WHERE r.block = b.id AND r.role = session_user;
  IF NOT FOUND THEN
    RAISE EXCEPTION 'role % is no requester of block %', session_user, quote_literal(b.name)
      USING HINT = 'who has the role meters_importer enters it: SELECT meters.enrol(block, role, subject)';
  END IF;
  now_at := meters.instant(b.unit, b.origin);
  IF now_at NOT BETWEEN 0 AND 4294967294 THEN
    RAISE EXCEPTION 'the clock stands outside the instants of the block' USING HINT = 'look at its unit and origin';
  END IF;
  RETURN meters.put_lines(b, ARRAY(
    SELECT now_at || ' ' || who || ' ' || regexp_replace(q, ' now(?= |$)', ' ' || now_at, 'g')
    FROM unnest(requests) WITH ORDINALITY AS t(q, n) ORDER BY n));
END $$;

CREATE FUNCTION meters.put(block text, request text) RETURNS text
LANGUAGE sql SECURITY DEFINER SET search_path = pg_catalog, pg_temp
AS $$ SELECT (meters.put_many(block, ARRAY[request]))[1] $$;

-- Lines with their own now and requester, for an import.
CREATE FUNCTION meters.put_as_written(block text, lines text[]) RETURNS text[]
LANGUAGE plpgsql SECURITY DEFINER SET search_path = pg_catalog, pg_temp AS $$
BEGIN
  IF lines IS NULL THEN
    RAISE EXCEPTION 'no line is given';
  END IF;
  RETURN meters.put_lines(meters.lock_block(block), lines);
END $$;

-- A new block, empty or from imported bytes. Bytes with a clock ahead of the block's would refuse every request until then.
CREATE FUNCTION meters.new_block(name text, unit bigint DEFAULT 1, origin bigint DEFAULT 0, initial bytea DEFAULT NULL) RETURNS void
LANGUAGE plpgsql SECURITY DEFINER SET search_path = pg_catalog, pg_temp AS $$
DECLARE last bigint; now_at bigint;
BEGIN
  IF NOT access_base.is_sound(initial) THEN
    RAISE EXCEPTION 'the bytes are no sound base' USING HINT = 'import what ''meters export'' wrote';
  END IF;
  INSERT INTO meters.blocks(name, unit, origin, initial, base) VALUES (name, unit, origin, initial, coalesce(initial, access_base.empty()));
  SELECT clock, greatest(meters.instant(unit, origin), 0) INTO last, now_at FROM access_base.heading(initial);
  IF last > now_at THEN
    RAISE EXCEPTION 'the clock of these bytes is ahead of the block, which would take no request until then'
      USING HINT = 'give the unit and origin that they were made with, as ''meters export'' told them',
        DETAIL = format('The bytes stand at instant %s, the block at %s.', last, now_at);
  END IF;
EXCEPTION
  WHEN unique_violation THEN
    RAISE EXCEPTION 'there is a block of that name already' USING HINT = 'give another name';
  WHEN check_violation OR not_null_violation THEN
    RAISE EXCEPTION 'the name, unit or origin is out of bounds'
      USING HINT = 'a name has 1 to 200 characters, and no control character among them; a unit is 1 to 1099511627776 seconds; '
        'an origin is at most 1000000000000 seconds from 1970';
END $$;

CREATE FUNCTION meters.enrol(block text, role name, subject int) RETURNS void
LANGUAGE plpgsql SECURITY DEFINER SET search_path = pg_catalog, pg_temp AS $$
#variable_conflict use_column
BEGIN
  IF NOT EXISTS (SELECT 1 FROM pg_roles WHERE rolname = enrol.role) THEN
    RAISE EXCEPTION 'there is no role %', quote_nullable(enrol.role) USING HINT = 'CREATE ROLE it first';
  END IF;
  IF enrol.subject NOT BETWEEN 1 AND 1023 OR enrol.subject IS NULL THEN
    RAISE EXCEPTION 'a subject is a number from 1 to 1023' USING HINT = 'give the requester''s number in that block';
  END IF;
  INSERT INTO meters.requesters SELECT id, enrol.role, enrol.subject FROM meters.blocks WHERE name = enrol.block
    ON CONFLICT (block, role) DO UPDATE SET subject = excluded.subject;
  IF NOT FOUND THEN
    RAISE EXCEPTION 'there is no block %', quote_nullable(enrol.block) USING HINT = 'make it first: SELECT meters.new_block(name)';
  END IF;
END $$;

CREATE FUNCTION meters.unenrol(block text, role name) RETURNS void
LANGUAGE plpgsql SECURITY DEFINER SET search_path = pg_catalog, pg_temp AS $$
BEGIN
  DELETE FROM meters.requesters r USING meters.blocks b WHERE b.id = r.block AND b.name = unenrol.block AND r.role = unenrol.role;
  IF NOT FOUND THEN
    RAISE EXCEPTION 'role % is no requester of block %', quote_nullable(unenrol.role), quote_nullable(unenrol.block)
      USING HINT = 'meters.requesters has who is';
  END IF;
END $$;

-- What does not hold of a block, or NULL: its base sound, the journal without a gap, and replay equal to the stored bytes.
CREATE FUNCTION meters.check_block(block text) RETURNS text
LANGUAGE plpgsql STABLE SECURITY DEFINER SET search_path = pg_catalog, pg_temp AS $$
DECLARE b meters.blocks; entry record; answer record; after bytea; expected bigint := 0;
BEGIN
  SELECT * INTO b FROM meters.blocks WHERE name = check_block.block;
  IF NOT FOUND THEN
    RAISE EXCEPTION 'there is no block %', quote_nullable(check_block.block);
  END IF;
  IF NOT access_base.is_sound(b.base) THEN
    RETURN 'the base is not sound: restore a copy';
  END IF;
  after := coalesce(b.initial, access_base.empty());
  FOR entry IN SELECT number, line, reply FROM meters.journal j WHERE j.block = b.id ORDER BY number LOOP
    expected := expected + 1;
    IF entry.number <> expected THEN
      RETURN format('request %s is missing from the journal', expected);
    END IF;
    SELECT * INTO answer FROM access_base.put(after, entry.line);
    IF answer.reply <> entry.reply THEN
      RETURN format('request %s (%s): the journal has %L, replay %L', expected, entry.line, entry.reply, answer.reply);
    END IF;
    after := answer.after;
  END LOOP;
  IF expected <> b.requests THEN
    RETURN format('the block counts %s requests, the journal has %s', b.requests, expected);
  END IF;
  RETURN CASE WHEN after <> b.base THEN 'replay gives other bytes than the stored ones' END;
END $$;

-- ---- who may call what
REVOKE ALL ON ALL FUNCTIONS IN SCHEMA meters FROM PUBLIC;
REVOKE ALL ON ALL TABLES IN SCHEMA meters FROM PUBLIC;
GRANT USAGE ON SCHEMA meters TO meters_reader;
GRANT SELECT ON ALL TABLES IN SCHEMA meters TO meters_reader;
GRANT EXECUTE ON FUNCTION meters.instant(bigint, bigint), meters.check_block(text) TO meters_reader;
GRANT EXECUTE ON FUNCTION meters.put(text, text), meters.put_many(text, text[]) TO meters_writer;
GRANT EXECUTE ON FUNCTION meters.put_as_written(text, text[]), meters.new_block(text, bigint, bigint, bytea),
  meters.enrol(text, name, int), meters.unenrol(text, name) TO meters_importer;
RESET ROLE;
COMMIT;
