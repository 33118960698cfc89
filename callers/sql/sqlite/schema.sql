-- Blocks and their journal in an SQLite file. Run once on an empty file, with the extension loaded; `meters` does it.
-- The way in is INSERT INTO put or put_as_written; the triggers stop every other, by accident, not by malice: whoever can
-- write to the file can do anything to it. docs/STORES.md says how to find that out (replay).
PRAGMA journal_mode = WAL;
BEGIN IMMEDIATE;
PRAGMA application_id = 1297236529; -- the letters MRB1, by which a foreign file is told
PRAGMA user_version = 1;

-- A constraint's name is what an error says: a sentence.
CREATE TABLE blocks (
  id INTEGER PRIMARY KEY,
  name TEXT NOT NULL UNIQUE
    CONSTRAINT "a block's name has 1 to 200 characters, and no control character among them: give another"
      CHECK (length(name) BETWEEN 1 AND 200 AND instr(CAST(name AS BLOB), x'00') = 0
        AND name NOT GLOB '*[' || char(1) || '-' || char(31) || char(127) || '-' || char(159) || ']*'),
  unit INTEGER NOT NULL DEFAULT 1                    -- how many seconds an instant lasts
    CONSTRAINT "a unit is 1 to 1099511627776 seconds" CHECK (unit BETWEEN 1 AND 1099511627776),
  origin INTEGER NOT NULL DEFAULT 0                  -- where instants count from, in seconds since 1970
    CONSTRAINT "an origin is at most 1000000000000 seconds from 1970" CHECK (origin BETWEEN -1000000000000 AND 1000000000000),
  requests INTEGER NOT NULL DEFAULT 0,               -- the number of the last one in the journal
  initial BLOB,                                      -- imported bytes; NULL: it began empty
  base BLOB NOT NULL
    CONSTRAINT "the bytes are no sound base: import what 'meters export' wrote" CHECK (access_base_is_sound(base))
) STRICT;

CREATE TABLE journal (
  block INTEGER NOT NULL REFERENCES blocks,
  number INTEGER NOT NULL,
  at TEXT NOT NULL DEFAULT (strftime('%Y-%m-%dT%H:%M:%fZ')),
  line TEXT NOT NULL,
  reply TEXT NOT NULL,
  PRIMARY KEY (block, number)
) STRICT, WITHOUT ROWID;

-- Which subject of a block a login name is.
CREATE TABLE requesters (
  block INTEGER NOT NULL REFERENCES blocks,
  role TEXT NOT NULL,
  subject INTEGER NOT NULL CONSTRAINT "a subject is a number from 1 to 1023" CHECK (subject BETWEEN 1 AND 1023),
  PRIMARY KEY (block, role)
) STRICT, WITHOUT ROWID;

-- A block's instant by the machine's clock; below 0 before its origin.
CREATE VIEW clocks AS
  SELECT id, name, CASE WHEN unixepoch() < origin THEN -1 ELSE (unixepoch() - origin) / unit END AS instant FROM blocks;

-- ---- the journal: the next number, the true reply, no instant ahead of the clock; the base follows
CREATE TRIGGER journal_next BEFORE INSERT ON journal
WHEN NOT EXISTS (SELECT 1 FROM blocks WHERE id = NEW.block AND requests + 1 = NEW.number)
BEGIN SELECT RAISE(ABORT, 'not the next number of that block: INSERT INTO put(block, role, request)'); END;

-- What is longer than ten digits or no number is refused by the library.
CREATE TRIGGER journal_clock BEFORE INSERT ON journal
WHEN NEW.line GLOB 'inf *' OR instr(NEW.line, ' ') BETWEEN 2 AND 11
  AND substr(NEW.line, 1, instr(NEW.line, ' ') - 1) NOT GLOB '*[^0-9]*'
  AND CAST(substr(NEW.line, 1, instr(NEW.line, ' ') - 1) AS INTEGER) > (SELECT instant FROM clocks WHERE id = NEW.block)
BEGIN SELECT RAISE(ABORT, 'the request is ahead of the clock, and would shut out all others until then: give a now that has come'); END;

CREATE TRIGGER journal_true BEFORE INSERT ON journal
WHEN NEW.reply IS NOT (SELECT access_base_reply(base, NEW.line) FROM blocks WHERE id = NEW.block)
BEGIN SELECT RAISE(ABORT, 'not the reply to that line: INSERT INTO put(block, role, request)'); END;

CREATE TRIGGER journal_carried AFTER INSERT ON journal BEGIN
  UPDATE blocks SET requests = NEW.number, base = access_base_after(base, NEW.line)
    WHERE id = NEW.block AND NEW.reply GLOB 'done *';
  UPDATE blocks SET requests = NEW.number WHERE id = NEW.block AND NOT NEW.reply GLOB 'done *';
END;

CREATE TRIGGER journal_kept BEFORE UPDATE ON journal BEGIN SELECT RAISE(ABORT, 'the journal is not altered'); END;
CREATE TRIGGER journal_stays BEFORE DELETE ON journal BEGIN SELECT RAISE(ABORT, 'the journal is not altered'); END;

-- ---- blocks: made once, changed by the journal alone. Between statements no journal row has the number requests + 1, so
-- that only journal_carried gets past blocks_follow. A block made is not replaced: REPLACE fires no DELETE trigger.
CREATE TRIGGER blocks_follow BEFORE UPDATE OF id, requests, initial, base ON blocks
WHEN NEW.id <> OLD.id OR NEW.initial IS NOT OLD.initial OR NEW.requests <> OLD.requests + 1
  OR NOT EXISTS (SELECT 1 FROM journal WHERE block = OLD.id AND number = NEW.requests)
BEGIN SELECT RAISE(ABORT, 'a base changes by a request alone: INSERT INTO put(block, role, request)'); END;

CREATE TRIGGER blocks_fixed BEFORE UPDATE OF name, unit, origin ON blocks
WHEN NEW.name IS NOT OLD.name OR (OLD.requests > 0 AND (NEW.unit IS NOT OLD.unit OR NEW.origin IS NOT OLD.origin))
BEGIN SELECT RAISE(ABORT, 'a block keeps its name, and what an instant is once a request was put'); END;

CREATE TRIGGER blocks_stay BEFORE DELETE ON blocks BEGIN SELECT RAISE(ABORT, 'a block is not removed'); END;

CREATE TRIGGER blocks_new BEFORE INSERT ON blocks BEGIN
  SELECT RAISE(ABORT, 'there is a block of that name already: give another name')
    WHERE EXISTS (SELECT 1 FROM blocks WHERE name = NEW.name OR id = NEW.id);
  SELECT RAISE(ABORT, 'a block starts from its initial base, with no request: leave base and requests to that')
    WHERE NEW.requests <> 0 OR NEW.base IS NOT coalesce(NEW.initial, access_base_empty());
END;

-- A clock ahead of the block's would refuse every request until then.
CREATE TRIGGER blocks_clock AFTER INSERT ON blocks
WHEN (SELECT clock FROM access_base_heading(NEW.base)) > (SELECT max(instant, 0) FROM clocks WHERE id = NEW.id)
BEGIN
  SELECT RAISE(ABORT, 'the clock of these bytes is ahead of the block, which would take no request until then: give the unit and origin that they were made with, as ''meters export'' told them');
END;

-- ---- the way in
-- INSERT INTO put(block, role, request): `now` from the clock, the requester from the table, and the rest as given, where the
-- word now stands for the clock's instant.
CREATE VIEW put AS SELECT '' AS block, '' AS role, '' AS request WHERE 0;
CREATE TRIGGER put_request INSTEAD OF INSERT ON put BEGIN
  SELECT RAISE(ABORT, 'no such block: make it first (meters new)')
    WHERE NOT EXISTS (SELECT 1 FROM blocks WHERE name = NEW.block);
  SELECT RAISE(ABORT, 'that role is no requester of the block: enter its subject first (meters enrol)')
    WHERE NOT EXISTS (SELECT 1 FROM requesters r JOIN blocks b ON b.id = r.block WHERE b.name = NEW.block AND r.role = NEW.role);
  SELECT RAISE(ABORT, 'the clock stands outside the instants of the block: look at its unit and origin')
    FROM clocks WHERE name = NEW.block AND instant NOT BETWEEN 0 AND 4294967294;
  INSERT INTO put_as_written(block, line)
    SELECT NEW.block, c.instant || ' ' || r.subject || ' ' || substr(q, 1, length(q) - 1)
    FROM (SELECT *, replace(replace(NEW.request || ' ', ' now ', ' ' || instant || ' '), ' now ', ' ' || instant || ' ') AS q FROM clocks) c
      JOIN requesters r ON r.block = c.id WHERE c.name = NEW.block AND r.role = NEW.role;
END;

-- INSERT INTO put_as_written(block, line): a line with its own now and requester, for an import.
CREATE VIEW put_as_written AS SELECT '' AS block, '' AS line WHERE 0;
CREATE TRIGGER put_line INSTEAD OF INSERT ON put_as_written BEGIN
  SELECT RAISE(ABORT, 'no such block: make it first (meters new)')
    WHERE NOT EXISTS (SELECT 1 FROM blocks WHERE name = NEW.block);
  INSERT INTO journal(block, number, line, reply)
    SELECT id, requests + 1, NEW.line, access_base_reply(base, NEW.line) FROM blocks WHERE name = NEW.block;
END;
COMMIT;
