"""Where blocks are kept: an SQLite file, or a PostgreSQL database. Both answer the same calls."""
import datetime
import os
import random
import sqlite3
import time
from collections import namedtuple

HERE = os.path.dirname(os.path.realpath(__file__))
ROOT = os.path.dirname(os.path.dirname(HERE))
SQL = os.path.join(ROOT, "callers", "sql")
EXTENSION = os.environ.get("METERS_EXTENSION", os.path.join(ROOT, "target", "sql", "access_base"))
APPLICATION, VERSION = 1297236529, 1  # the letters MRB1; as the schema has them
LAST = 4294967295
BASE_BYTES = 27936
LINE_BYTES = 96
WAIT = 30  # seconds to wait for the lock of an SQLite file

Block = namedtuple("Block", "name unit origin requests instant")
Entry = namedtuple("Entry", "number at line reply")


class Fault(Exception):
    """What went wrong, in a sentence that says what to do."""


def is_question(line):
    return line.startswith("MAY ") or line.startswith("WHEN ")


def line_fault(line):
    """What is wrong with a line before anybody reads it, or None."""
    if any(not " " <= c <= "~" for c in line):
        return "has a character that is not printable ASCII: write it as docs/SESSION.md has it"
    if len(line) > LINE_BYTES:
        return f"has {len(line)} bytes, and no request has more than {LINE_BYTES}: see docs/SESSION.md"
    return None


def is_postgres(place):
    return place.startswith(("postgresql://", "postgres://")) or "=" in place and "/" not in place.split("=")[0]


def open_store(place, create=False):
    if is_postgres(place):
        return Postgres(place)
    return Sqlite(place, create)


def replay(entries, put, begin):
    """Puts a journal again from the base it began with: the base after it, and what does not agree, or None."""
    base, expected = begin, 1
    for entry in entries:
        if entry.number != expected:
            return base, f"request {expected} is missing from the journal"
        reply, base = put(base, entry.line)
        if reply != entry.reply:
            return base, f"request {entry.number} ({entry.line}): the journal has '{entry.reply}', replay '{reply}'"
        expected += 1
    return base, None


ENROL = ("INSERT INTO requesters SELECT id, ?, ? FROM blocks WHERE name = ? "
         "ON CONFLICT (block, role) DO UPDATE SET subject = excluded.subject")


class Sqlite:
    """One file. Every write is one transaction begun with BEGIN IMMEDIATE, flushed before it is acknowledged."""

    def __init__(self, path, create=False):
        self.path = path
        if path in ("", ":memory:"):
            raise Fault("a store is kept in a file: name one with --store")
        if not create and not os.path.exists(path):
            raise Fault(f"there is no file {path}: make it with 'meters new BLOCK', or name another with --store")
        if create and not os.path.isdir(os.path.dirname(path) or "."):
            raise Fault(f"there is no folder {os.path.dirname(path)}: make it first")
        try:
            self.db = sqlite3.connect(path, isolation_level=None, timeout=WAIT)
            self.load()
            self.settle(create)
        except sqlite3.Error as error:
            raise self.fault(error) from error

    def load(self):
        if not hasattr(self.db, "enable_load_extension"):
            raise Fault("this Python cannot load SQLite extensions: use /usr/bin/python3 of Debian")
        if not os.path.exists(EXTENSION + ".so"):
            raise Fault(f"{EXTENSION}.so is not built: run 'tools/build ffi' and then 'make -C callers/sql'")
        self.db.enable_load_extension(True)
        self.db.load_extension(EXTENSION)
        self.db.enable_load_extension(False)

    def settle(self, create):
        for pragma in ("synchronous = FULL", "foreign_keys = ON", "trusted_schema = OFF", "recursive_triggers = ON"):
            self.db.execute("PRAGMA " + pragma)
        if self.is_empty():
            if not create:
                raise Fault(f"{self.path} is empty: make its first block with 'meters new BLOCK'")
            self.make_tables()
        if self.pragma("application_id") != APPLICATION:
            raise Fault(f"{self.path} is a database of something else: name another file with --store")
        if self.pragma("user_version") != VERSION:
            raise Fault(f"{self.path} was made by another version of meters: use that one")

    def pragma(self, name):
        return self.db.execute("PRAGMA " + name).fetchone()[0]

    def is_empty(self):
        return self.pragma("application_id") == 0 and self.db.execute("SELECT count(*) FROM sqlite_schema").fetchone()[0] == 0

    def make_tables(self):
        """Makes the tables in a file that was empty a moment ago. Where another made them meanwhile, theirs stand: the script's
        transaction fails at its first table."""
        with open(os.path.join(SQL, "sqlite", "schema.sql"), encoding="ascii") as schema:
            script = schema.read()
        self.patiently("PRAGMA journal_mode = WAL")
        try:
            self.db.executescript(script)
        except sqlite3.Error:
            if self.db.in_transaction:
                self.db.execute("ROLLBACK")
            if self.is_empty():
                raise

    def fault(self, error):
        text = str(error).removeprefix("CHECK constraint failed: ")
        if text.startswith("Could not decode to UTF-8"):
            return Fault(f"{self.path} has a text that is not UTF-8, which 'meters' does not write: restore a copy")
        advice = {
            "file is not a database": f"{self.path} is no SQLite database: name another file with --store",
            "attempt to write a readonly database": f"{self.path} or its folder is read-only: nothing was written",
            "unable to open database file": f"{self.path} cannot be opened: look at the folder and its permissions",
            "database is locked": f"{self.path} is being written by another program: nothing was written, try again",
            "database or disk is full": "the disk is full: nothing was written, make room and try again",
            "disk I/O error": f"the disk under {self.path} failed: nothing was acknowledged; look at it, then 'meters check'",
            "database disk image is malformed": f"{self.path} is damaged: restore a copy",
        }
        return Fault(advice.get(text, text))

    def one(self, sql, *values):
        try:
            return self.db.execute(sql, values).fetchone()
        except sqlite3.Error as error:
            raise self.fault(error) from error

    def all(self, sql, *values):
        try:
            return self.db.execute(sql, values).fetchall()
        except sqlite3.Error as error:
            raise self.fault(error) from error

    def patiently(self, sql):
        """Runs what takes the write lock, asking again after a short while for WAIT seconds: SQLite's own wait grows, and starves the
        patient."""
        end = time.monotonic() + WAIT
        self.db.execute("PRAGMA busy_timeout = 0")
        try:
            while True:
                try:
                    self.db.execute(sql)
                    return
                except sqlite3.OperationalError as error:
                    if str(error) != "database is locked" or time.monotonic() > end:
                        raise
                    time.sleep(random.uniform(0.001, 0.006))
        finally:
            self.db.execute(f"PRAGMA busy_timeout = {1000 * WAIT}")

    def transaction(self, work):
        try:
            self.patiently("BEGIN IMMEDIATE")
            try:
                result = work()
                self.db.execute("COMMIT")
                return result
            except BaseException:
                if self.db.in_transaction:
                    self.db.execute("ROLLBACK")
                raise
        except sqlite3.Error as error:
            raise self.fault(error) from error

    # ---- blocks
    def block(self, name):
        row = self.one("SELECT b.name, unit, origin, requests, instant FROM blocks b JOIN clocks USING (id) WHERE b.name = ?", name)
        if row is None:
            raise Fault(f"there is no block '{name}': 'meters blocks' lists them, 'meters new' makes one")
        return Block(*row)

    def blocks(self):
        rows = self.all("SELECT b.name, unit, origin, requests, instant FROM blocks b JOIN clocks USING (id) ORDER BY b.name")
        return [Block(*row) for row in rows]

    def new(self, name, unit, origin, initial=None, enrolled=()):
        """A new block, and who puts requests to it: pairs of a login name and a subject."""
        def work():
            self.db.execute("INSERT INTO blocks(name, unit, origin, initial, base) VALUES (?, ?, ?, ?4, coalesce(?4, access_base_empty()))",
                            (name, unit, origin, initial))
            for role, subject in enrolled:
                self.db.execute(ENROL, (role, subject, name))
        self.transaction(work)

    def enrol(self, name, role, subject):
        self.block(name)
        self.transaction(lambda: self.db.execute(ENROL, (role, subject, name)))

    def unenrol(self, name, role):
        self.block(name)
        removed = self.transaction(lambda: self.db.execute(
            "DELETE FROM requesters WHERE role = ? AND block = (SELECT id FROM blocks WHERE name = ?)", (role, name)).rowcount)
        if removed == 0:
            raise Fault(f"{role} is no requester of block '{name}': 'meters requesters' lists them")

    def requesters(self, name):
        self.block(name)
        return self.all("SELECT role, subject FROM requesters WHERE block = (SELECT id FROM blocks WHERE name = ?) ORDER BY 2, 1", name)

    # ---- requests
    def put(self, name, role, requests):
        """Puts requests, all in one transaction: the replies."""
        return self.insert(name, requests, "INSERT INTO put(block, role, request) VALUES (?, ?, ?)", (name, role))

    def put_as_written(self, name, lines):
        return self.insert(name, lines, "INSERT INTO put_as_written(block, line) VALUES (?, ?)", (name,))

    def insert(self, name, lines, sql, leading):
        self.block(name)

        def work():
            replies = []
            (block,) = self.db.execute("SELECT id FROM blocks WHERE name = ?", (name,)).fetchone()
            for line in lines:
                self.db.execute(sql, leading + (line,))
                replies += self.db.execute(
                    "SELECT reply FROM journal WHERE block = ? ORDER BY number DESC LIMIT 1", (block,)).fetchone()
            return replies
        return self.transaction(work)

    def journal(self, name, first=1, last=None):
        rows = self.all("SELECT number, at, line, reply FROM journal WHERE block = (SELECT id FROM blocks WHERE name = ?) "
                        "AND number BETWEEN ? AND ? ORDER BY number", name, first, last or 2**62)
        return [Entry(*row) for row in rows]

    # ---- the base
    def base(self, name):
        self.block(name)
        return self.one("SELECT base FROM blocks WHERE name = ?", name)[0]

    def reply(self, base, line):
        return self.one("SELECT access_base_reply(?, ?)", base, line)[0]

    def runs(self, base, subject, mode, object_):
        return self.all("SELECT starts, ends FROM access_base_runs(?, ?, ?, ?)", base, subject, mode, object_)

    def sheet(self, base, object_):
        return self.one("SELECT access_base_sheet(?, ?)", base, object_)[0]

    def records(self, base, body):
        """The records of a body as dictionaries."""
        try:
            cursor = self.db.execute(f"SELECT * FROM access_base_{body}(?)", (base,))
            names = [column[0] for column in cursor.description]
            return [dict(zip(names, row)) for row in cursor]
        except sqlite3.Error as error:
            raise self.fault(error) from error

    # ---- checks
    def check_store(self):
        faults = [row[0] for row in self.all("PRAGMA integrity_check") if row[0] != "ok"]
        return faults + [f"table {row[0]} names a block that is not there" for row in self.all("PRAGMA foreign_key_check")]

    def check(self, name):
        """What does not hold of a block, or None: its base sound, and what replay gives."""
        self.one("BEGIN")
        try:
            initial, base, requests = self.one(
                "SELECT coalesce(initial, access_base_empty()), base, requests FROM blocks WHERE name = ?", name)
            if not self.one("SELECT access_base_is_sound(?)", base)[0]:
                return "the base is not sound: restore a copy"
            entries = self.journal(name)
        finally:
            self.one("ROLLBACK")
        after, fault = replay(entries, self.put_once, initial)
        if fault is None and len(entries) != requests:
            fault = f"the block counts {requests} requests, the journal has {len(entries)}"
        if fault is None and after != base:
            fault = "replay gives other bytes than the stored ones"
        return fault

    def put_once(self, base, line):
        try:
            return self.one("SELECT access_base_reply(?1, ?2), access_base_after(?1, ?2)", base, line)
        except Fault as fault:
            return str(fault), base


class Postgres:
    """A database with the extension access_base and the schema meters (callers/sql/postgres)."""

    def __init__(self, place):
        try:
            import psycopg
        except ImportError as error:
            raise Fault("the PostgreSQL driver is missing: apt-get install python3-psycopg, and run /usr/bin/python3") from error
        self.errors = psycopg
        try:
            self.db = psycopg.connect(place, autocommit=True)
        except psycopg.Error as error:
            raise Fault(f"no connection: {str(error).strip()}") from error
        if self.one("SELECT to_regclass('meters.blocks')")[0] is None:
            raise Fault("this database has no blocks yet: docs/STORES.md says how a superuser sets it up")

    def fault(self, error):
        diagnosis = getattr(error, "diag", None)
        if diagnosis is None or diagnosis.message_primary is None:
            return Fault(str(error).strip() or "the connection ended: what was not acknowledged may not be stored, look at the journal")
        advice = {
            "25006": "this server or session is read-only: nothing was written, connect to the one that takes writes",
            "40001": "another was faster: nothing was written, try again",
            "42501": "your role may not do this; a superuser grants meters_reader, meters_writer or meters_importer",
        }
        hint = advice.get(diagnosis.sqlstate, diagnosis.message_hint)
        return Fault(diagnosis.message_primary + (f": {hint}" if hint else ""))

    def cursor(self, sql, values):
        try:
            return self.db.execute(sql, values)
        except self.errors.Error as error:
            raise self.fault(error) from error

    def one(self, sql, *values):
        return self.cursor(sql, values).fetchone()

    def all(self, sql, *values):
        return self.cursor(sql, values).fetchall()

    # ---- blocks
    def block(self, name):
        row = self.one("SELECT name, unit, origin, requests, instant FROM meters.clocks WHERE name = %s", name)
        if row is None:
            raise Fault(f"there is no block '{name}': 'meters blocks' lists them, 'meters new' makes one")
        return Block(*row)

    def blocks(self):
        return [Block(*row) for row in self.all("SELECT name, unit, origin, requests, instant FROM meters.clocks ORDER BY name")]

    def new(self, name, unit, origin, initial=None):
        self.one("SELECT meters.new_block(%s, %s, %s, %s)", name, unit, origin, initial)

    def enrol(self, name, role, subject):
        self.one("SELECT meters.enrol(%s, %s, %s)", name, role, subject)

    def unenrol(self, name, role):
        self.one("SELECT meters.unenrol(%s, %s)", name, role)

    def requesters(self, name):
        self.block(name)
        return self.all("SELECT role, subject FROM meters.requesters r JOIN meters.blocks b ON b.id = r.block "
                        "WHERE b.name = %s ORDER BY 2, 1", name)

    # ---- requests
    def put(self, name, role, requests):
        if role is not None:
            raise Fault("the server takes the requester from the role you connect with: leave --as out")
        return self.one("SELECT meters.put_many(%s, %s)", name, list(requests))[0]

    def put_as_written(self, name, lines):
        return self.one("SELECT meters.put_as_written(%s, %s)", name, list(lines))[0]

    def journal(self, name, first=1, last=None):
        rows = self.all("SELECT number, to_char(at AT TIME ZONE 'UTC', 'YYYY-MM-DD\"T\"HH24:MI:SS.MS\"Z\"'), line, reply "
                        "FROM meters.journal j JOIN meters.blocks b ON b.id = j.block "
                        "WHERE b.name = %s AND number BETWEEN %s AND %s ORDER BY number", name, first, last or 2**62)
        return [Entry(*row) for row in rows]

    # ---- the base
    def base(self, name):
        self.block(name)
        return bytes(self.one("SELECT base::bytea FROM meters.blocks WHERE name = %s", name)[0])

    def reply(self, base, line):
        return self.one("SELECT reply FROM access_base.put(%s, %s)", base, line)[0]

    def runs(self, base, subject, mode, object_):
        rows = self.all("SELECT lower(r), upper(r) FROM unnest(access_base.runs(%s, %s, %s, %s)) r", base, subject, mode, object_)
        return [(start, LAST if end is None else end - 1) for start, end in rows]

    def sheet(self, base, object_):
        return self.one("SELECT access_base.sheet(%s, %s)", base, object_)[0]

    def records(self, base, body):
        cursor = self.cursor(f"SELECT * FROM access_base.{body}(%s)", (base,))
        names = [column[0] for column in cursor.description]
        return [dict(zip(names, row)) for row in cursor]

    # ---- checks
    def check_store(self):
        return []

    def check(self, name):
        return self.one("SELECT meters.check_block(%s)", name)[0]


def moment(block, instant):
    """An instant of a block as a date, or None where dates do not reach."""
    seconds = block.origin + instant * block.unit
    try:
        return datetime.datetime.fromtimestamp(seconds, datetime.timezone.utc)
    except (OverflowError, ValueError, OSError):
        return None
