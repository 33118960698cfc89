"""What both stores promise, with the real engines: requests and replay, load, crashes, full disks, bad input, roles."""
import glob
import multiprocessing
import os
import resource
import signal
import sqlite3
import struct
import subprocess
import sys
import time
import unittest

import trial
from trial import CLIENTS, CLUSTER, FOLDER, HERE, METERS, SECONDS, needs_postgres, run_clients, socket_of, sqlite_store, stores


def read_here(base):
    """The rows of every body, read here once more from where docs/FORMAT.md has them."""
    def body(n, form, row):
        offset, count = struct.unpack_from("<HH", base, 12 + 4 * n)
        width = struct.calcsize(form)
        return [row(*struct.unpack_from(form, base, offset + width * i)) for i in range(count)]

    def pair(*values): return list(values)
    def line(label, grantor, subject, meter, mode, flags, granted, starts, ends):
        return [label, grantor, subject, meter, mode, flags & 1, flags >> 1 & 1, granted, starts, ends]
    def rule(label, author, subject, meter, other, right, grantor, mode, right_mode, operator, flags, starts, ends):
        return [label, author, subject, mode, meter, flags & 1, operator, other, right_mode, right, flags >> 1 & 1, grantor,
                2 if flags & 8 else flags >> 2 & 1, starts, ends]
    rows = {"objects": body(0, "<HH", pair), "administrators": body(1, "<HH", pair), "referrers": body(2, "<HH", pair),
            "authorizations": body(3, "<HHHHBBxxIII", line), "rules": body(4, "<HHHHHHHBBBBxxII", rule)}
    return {"heading": [[*struct.unpack_from("<IH", base, 4), *map(len, rows.values())]], **rows}


def limit_files(process, size):
    """No file may grow beyond the size by that process, which is the server's user's."""
    order = ["prlimit", f"--pid={process}", f"--fsize={'unlimited' if size == resource.RLIM_INFINITY else size}:"]
    subprocess.run((["runuser", "-u", "postgres", "--"] if os.getuid() == 0 else []) + order, check=True)


# ---- what both stores promise
class Store:
    """The same tests for both stores."""

    def test_requests_and_replay(self):
        store = self.importer
        store.new(self.name, 1, 0)
        lines = ["4 1 NEW 7", "5 1 GRANT 1 7 2 50 200 y", "6 2 GRANT 1 7 3 60 90 n", "junk", "6 9 REVOKE 1"]
        self.assertEqual(store.put_as_written(self.name, lines), ["done 0 0", "done 1 1", "done 2 2", "refused 1", "refused 8"])
        self.assertEqual([(e.number, e.line) for e in store.journal(self.name)], list(enumerate(lines, 1)))
        self.assertIsNone(store.check(self.name))
        base = store.base(self.name)
        self.assertEqual(store.reply(base, "WHEN 3 1 7"), "60-90")
        self.assertEqual([tuple(run) for run in store.runs(base, 3, 1, 7)], [(60, 90)])
        self.assertEqual([r["label"] for r in store.records(base, "authorizations")], [1, 2])
        self.assertEqual(store.records(base, "objects"), [{"object": 7, "owner": 1}])

    def test_records(self):
        """Every number of every record, of a base with some of each kind and of one that is nearly full."""
        lines = open(os.path.join(HERE, "picture.txt"), encoding="ascii").read().splitlines()
        lines += ["64 1 GRANTADM 8 3", "64 1 GRANTREF 8 700", "64 1 ADDRULE 5 * 8 - UNLESS 6 * 8 + 1023 y 65 inf"]
        many = ["0 1 NEW 7"] + [f"0 1 GRANT {1 + i % 8} 7 {20 + i} {100 + i} {5000 + i} y" for i in range(1000)]
        for n, block in enumerate((lines, many)):
            name = f"{self.name} {n}"
            self.importer.new(name, 1, 0)
            self.assertEqual({r.split(" ")[0] for r in self.importer.put_as_written(name, block)}, {"done"})
            base = self.importer.base(name)
            bodies = read_here(base)
            self.assertGreater(min(map(len, bodies.values())) if n == 0 else len(bodies["authorizations"]), 999 * n, "nothing is compared")
            for body, expected in bodies.items():
                self.assertEqual([list(map(int, row.values())) for row in self.importer.records(base, body)], expected, body)

    def test_sheet(self):
        """The rights sheet after session S; of a meter without authorizations; refusals."""
        lines = ["4 1 NEW 7", "4 1 NEW 8", "4 1 GRANTADM 7 5", "5 1 GRANT 1 7 2 50 200 y", "50 5 GRANT 1 7 2 80 150 y",
                 "55 2 GRANT 1 7 3 55 180 y", "60 3 DENY 1 7 4 60 70", "61 1 REVOKEP 1 7 2 60 200", "61 1 DENY 8 7 1023 4294967294 inf"]
        self.importer.new(self.name, 1, 0)
        self.importer.put_as_written(self.name, lines)
        base = self.importer.base(self.name)
        self.assertEqual(self.importer.sheet(base, 7), "    1    1    2 1 + y         50         59\n"
                                                       "    2    5    2 1 + y         80        150\n"
                                                       "    3    2    3 1 + y         55         59\n"
                                                       "    3    2    3 1 + y         80        150\n"
                                                       "    5    1 1023 8 - n 4294967294        inf\n")
        self.assertEqual(self.importer.sheet(base, 8), "")
        for given, meter, refusal in ((base, 9, 6), (base, 0, 3), (base, 129, 3), (b"", 7, 2)):
            with self.assertRaisesRegex(stores.Fault, f"refused {refusal}"):
                self.importer.sheet(given, meter)
        with self.assertRaisesRegex(stores.Fault, "within 0 to 4294967295"):
            self.importer.sheet(base, 2**32)

    def test_now_from_the_clock(self):
        self.importer.new(self.name, 60, 1_500_000_000)
        self.importer.enrol(self.name, self.writer_role, 4)
        before = int((time.time() - 1_500_000_000) // 60)
        self.assertEqual(self.put("NEW 9", "GRANT 1 9 5 now inf n", "GRANT 1 9 5 0 inf n"), ["done 0 0", "done 1 1", "refused 5"])
        now, requester = self.importer.journal(self.name)[0].line.split(" ")[:2]
        self.assertTrue(before <= int(now) <= before + 2)
        self.assertEqual(requester, "4")

    def test_no_now_ahead_of_the_clock(self):
        self.importer.new(self.name, 1, 0)
        for line in ("inf 1 NEW 8", f"{int(time.time()) + 3600} 1 NEW 8", "4294967295 1 NEW 8"):
            with self.assertRaisesRegex(stores.Fault, "ahead of the clock"):
                self.importer.put_as_written(self.name, ["4 1 NEW 7", line])
        self.assertEqual(self.importer.journal(self.name), [])

    def test_lines_that_are_none(self):
        self.importer.new(self.name, 1, 0)
        self.importer.enrol(self.name, self.writer_role, 1)
        for bad, pattern in (("NEW 7\n", "printable"), ("NEW\t7", "printable"), ("NEW \x7f", "printable"), ("NEW ü", "printable"),
                             ("x" * 97, "more than 96"), ("NEW 7\r", "printable")):
            with self.assertRaisesRegex(stores.Fault, pattern):
                self.importer.put_as_written(self.name, ["4 1 NEW 7", bad])
            with self.assertRaisesRegex(stores.Fault, pattern):
                self.put("NEW 7", bad)
        self.assertEqual(self.importer.journal(self.name), [], "nothing of it is kept")
        self.assertEqual(self.importer.put_as_written(self.name, ["'; DROP TABLE journal; --", '"\\ %s', ""]), ["refused 1"] * 3)
        self.assertIsNone(self.importer.check(self.name))

    def test_bytes_of_every_length(self):
        full = self.importer.empty()
        self.assertEqual(self.sound_lengths(full + full), [stores.BASE_BYTES])
        self.assertFalse(self.importer.is_sound(full * 108))
        for place in (0, 4, 8, 12, 33, 27935):
            damaged = bytearray(full)
            damaged[place] ^= 0xFF
            # another clock or last label is a sound base too
            self.assertEqual(self.importer.is_sound(bytes(damaged)), place in (4, 8))
            with self.assertRaisesRegex(stores.Fault, "no sound base"):
                self.importer.new(self.name + str(place), 1, 0, b"x" + bytes(damaged)[1:])

    def test_questions_refused(self):
        base = self.importer.empty()
        for subject, mode, meter, refusal in ((0, 1, 1, 3), (1, 9, 1, 3), (1024, 1, 1, 3), (1, 1, 1, 6)):
            with self.assertRaisesRegex(stores.Fault, f"refused {refusal}"):
                self.importer.runs(base, subject, mode, meter)
        for wild in (-1, 2**32, 2**63 - 1, -2**63):
            with self.assertRaisesRegex(stores.Fault, "within 0 to 4294967295"):
                self.importer.runs(base, wild, 1, 1)
        with self.assertRaisesRegex(stores.Fault, "refused 2"):
            self.importer.runs(b"", 1, 1, 1)
        with self.assertRaisesRegex(stores.Fault, "refused 2"):
            self.importer.records(b"MRB1", "rules")

    def test_export_and_import(self):
        self.importer.new(self.name, 1, 0)
        self.importer.put_as_written(self.name, ["4 1 NEW 7", "5 1 GRANT 1 7 2 50 inf y"])
        base = self.importer.base(self.name)
        self.importer.new(self.name + "2", 1, 0, base)
        self.assertEqual(self.importer.put_as_written(self.name + "2", ["6 1 REVOKE 1"]), ["done 0 0"])
        self.assertIsNone(self.importer.check(self.name + "2"))
        with self.assertRaisesRegex(stores.Fault, "of that name already"):
            self.importer.new(self.name, 1, 0)

    def test_import_ahead_of_the_clock(self):
        """Bytes whose clock is ahead of the new block's would refuse every request: with a unit or an origin of which that is so they
        are refused, and no block is left; with others they are taken."""
        self.importer.new(self.name, 1, 0)
        self.importer.put_as_written(self.name, ["4 1 NEW 7", "100 1 NEW 8"])
        base, now = self.importer.base(self.name), int(time.time())
        for unit, origin in ((86400 * 1000, 0), (1, now - 50), (1, now + 50)):
            with self.assertRaisesRegex(stores.Fault, "clock of these bytes is ahead of the block.*unit and origin"):
                self.importer.new(self.name + "2", unit, origin, base)
        self.assertNotIn(self.name + "2", [block.name for block in self.importer.blocks()])
        self.importer.new(self.name + "2", 1, now - 200, base)
        self.importer.enrol(self.name + "2", self.writer_role, 1)
        self.assertEqual(self.put("NEW 9", block=self.name + "2"), ["done 0 0"])
        self.importer.new(self.name + "3", 1, now + 50, self.importer.empty())  # nobody was shut out by it

    def test_names(self):
        """A block's name has no control character; every other is taken."""
        for name in ("", "x" * 201, "a\tb", "a\nb", "a\x1b[31mb", "\x7f", "a\x85b"):
            with self.assertRaisesRegex(stores.Fault, "no control character"):
                self.importer.new(name, 1, 0)
        for name in ("x" * 200, "Größe 木 – 'quoted' \"%s\" <b> \\ [a-z] *?", " "):
            self.importer.new(name + self.kind[:1] if len(name) < 200 else name, 1, 0)

    def test_unit_and_origin(self):
        for unit, origin in ((0, 0), (2**40 + 1, 0), (1, 10**12 + 1), (1, -10**12 - 1)):
            with self.assertRaisesRegex(stores.Fault, "unit is 1 to|origin is at most"):
                self.importer.new(self.name, unit, origin)

    def test_requesters(self):
        """Entered, entered again as another subject, and taken out."""
        self.importer.new(self.name, 1, 0)
        for subject in (1, 2):
            self.importer.enrol(self.name, self.writer_role, subject)
            self.assertEqual([tuple(row) for row in self.importer.requesters(self.name)], [(self.writer_role, subject)])
        self.assertEqual(self.put("NEW 7"), ["done 0 0"])
        self.importer.unenrol(self.name, self.writer_role)
        self.assertEqual(self.importer.requesters(self.name), [])
        with self.assertRaisesRegex(stores.Fault, "is no requester of"):
            self.put("NEW 8")
        for block, role in ((self.name, self.writer_role), (self.name, "nobody at all"), ("no block of that name", self.writer_role)):
            with self.assertRaisesRegex(stores.Fault, "is no requester of|there is no block"):
                self.importer.unenrol(block, role)
        self.assertEqual(len(self.importer.journal(self.name)), 1)

    def test_now_that_is_no_number(self):
        """What the library cannot read is a reply, not an error about the clock; in both engines."""
        self.importer.new(self.name, 1, 0)
        lines = ["99999999999 1 NEW 8", " 4294967294 1 NEW 8", "+4294967294 1 NEW 8", "4294967294", "inf", "infx 1 NEW 8"]
        self.assertEqual(self.importer.put_as_written(self.name, lines), ["refused 1"] * len(lines))

    # ---- load
    def load(self, blocks):
        """16 clients put for a while; every acknowledged line stands in its journal once, in order, and replay is equal."""
        for block in blocks:
            self.importer.new(block, 1, 0)
            self.importer.put_as_written(block, ["0 1 NEW 7"])
        counts, worst, acknowledged = run_clients(self.place, self.kind, blocks, SECONDS)
        self.assert_kept(blocks, acknowledged)
        rate = sum(counts) / SECONDS
        print(f"  {self.kind}, {CLIENTS} clients on {len(blocks)} block(s): {rate:.0f} requests/s, longest wait {worst:.2f} s, "
              f"fewest and most of a client {min(counts)} and {max(counts)}", file=sys.stderr)

    def assert_kept(self, blocks, acknowledged, exactly=True):
        told = {block: [] for block in blocks}
        for path in glob.glob(acknowledged + "/*.acknowledged"):
            for line in open(path, encoding="ascii"):
                if line.endswith("\n"):
                    block, request, reply = line[:-1].split("\t")
                    told[block].append((request, reply))
        self.assertTrue(any(told.values()), "no request was acknowledged")
        for block in blocks:
            entries = self.importer.journal(block)
            self.assertEqual([e.number for e in entries], list(range(1, len(entries) + 1)))
            kept = {(e.line, e.reply) for e in entries}
            self.assertEqual([t for t in told[block] if t not in kept], [], "acknowledged and lost")
            if exactly:
                self.assertEqual(len(entries), len(told[block]) + 1)
            self.assertIsNone(self.importer.check(block))
        for path in glob.glob(acknowledged + "/*.acknowledged"):
            os.remove(path)

    def test_load_on_one_block(self):
        self.load([self.name])

    def test_load_on_many_blocks(self):
        self.load([f"{self.name} {i}" for i in range(20)])

    def setUp(self):
        self.name = f"{self.id().rsplit('.', 1)[1]}"


# ---- SQLite
def first_user(path, k, start, told):
    """Makes the file and a block in it, at once with others; tells what went wrong."""
    start.wait()
    try:
        stores.Sqlite(path, create=True).new(f"block {k}", 1, 0, None, [("anna", 1)])
        told.put("")
    except Exception as error:
        told.put(f"{type(error).__name__}: {error}")


class SqliteStore(Store, unittest.TestCase):
    kind = "SQLite"

    def setUp(self):
        super().setUp()
        self.importer = sqlite_store()
        self.place = self.importer.path
        self.writer_role = "somebody"
        self.importer.is_sound = lambda b: bool(self.importer.one("SELECT access_base_is_sound(?)", b)[0])
        self.importer.empty = lambda: self.importer.one("SELECT access_base_empty()")[0]

    def sound_lengths(self, data):
        """The lengths, up to that of the data, of which its front is a sound base."""
        return [row[0] for row in self.importer.all(
            "WITH RECURSIVE fronts(n) AS (SELECT 0 UNION ALL SELECT n + 1 FROM fronts WHERE n < length(?1)) "
            "SELECT n FROM fronts WHERE access_base_is_sound(substr(?1, 1, n))", data)]

    def put(self, *requests, block=None):
        return self.importer.put(block or self.name, self.writer_role, requests)

    def refused(self, *given):
        """Each statement, and what its error says."""
        for sql, pattern in given:
            with self.assertRaisesRegex(stores.Fault, pattern, msg=sql):
                self.importer.one(sql)

    def test_triggers(self):
        store = self.importer
        store.new("b", 1, 0)
        store.put_as_written("b", ["4 1 NEW 7"])
        before = store.base("b")
        by_request, exists, kept = "a base changes by a request alone", "of that name already", "the journal is not altered"
        journal = "INTO journal(block, number, line, reply) VALUES "
        self.refused(
            ("UPDATE blocks SET base = access_base_empty()", by_request),
            ("UPDATE blocks SET requests = 9", by_request),
            ("UPDATE blocks SET requests = requests + 1, base = access_base_empty()", by_request),
            ("UPDATE OR REPLACE blocks SET id = 9", by_request),
            ("UPDATE blocks SET initial = access_base_empty()", by_request),
            ("UPDATE blocks SET unit = 2", "a block keeps its name"),
            ("UPDATE blocks SET name = 'c'", "a block keeps its name"),
            ("DELETE FROM blocks", "a block is not removed"),
            ("INSERT OR REPLACE INTO blocks(id, name, base) VALUES (1, 'c', access_base_empty())", exists),
            ("INSERT OR REPLACE INTO blocks(name, base) VALUES ('b', access_base_empty())", exists),
            ("INSERT INTO blocks(name, base) VALUES ('d', zeroblob(27936))", "starts from its initial base"),
            ("INSERT INTO blocks(name, base) VALUES ('d', NULL)", "starts from its initial base"),
            ("INSERT INTO blocks(name, initial, base) VALUES ('d', zeroblob(9), zeroblob(9))", "refused 2|no sound base"),
            ("DELETE FROM journal", kept),
            ("UPDATE journal SET reply = 'no'", kept),
            (f"INSERT {journal} (1, 2, '5 1 NEW 8', 'done 9 9')", "not the reply to that line"),
            (f"INSERT OR REPLACE {journal} (1, 1, '5 1 NEW 8', 'done 0 0')", "not the next number"),
            (f"INSERT {journal} (1, 3, '5 1 NEW 8', 'done 0 0')", "not the next number"),
            (f"INSERT {journal} (1, 2, 'inf 1 NEW 8', 'done 0 0')", "ahead of the clock"),
            ("INSERT INTO put_as_written VALUES ('b', NULL)", "the line is no text"),
            ("INSERT INTO put_as_written VALUES ('b', x'ff')", "the line is no text"),
            ("INSERT INTO put_as_written VALUES ('b', CAST(x'3420ff' AS TEXT))", "not printable ASCII"),
            ("INSERT INTO put_as_written VALUES (NULL, '4 1 NEW 8')", "no such block"),
            ("INSERT INTO put VALUES (NULL, 'x', 'NEW 8')", "no such block"),
            ("INSERT INTO put VALUES ('b', NULL, 'NEW 8')", "no requester of the block"))
        self.assertEqual(store.base("b"), before)
        self.assertEqual([block.name for block in store.blocks()], ["b"])
        self.assertIsNone(store.check("b"))

    def test_arguments(self):
        no_blob, no_text, no_number = "the base is no BLOB", "the line is no text", "a number is missing, no integer"
        self.refused(*(("SELECT " + sql, pattern) for sql, pattern in (
            ("access_base_may(NULL, 1, 1, 1, 1)", no_blob),
            ("access_base_reply(NULL, 'x')", no_blob),
            ("access_base_after('x', 'x')", no_blob),
            ("access_base_sheet(5, 1)", no_blob),
            ("(SELECT count(*) FROM access_base_rules(NULL))", no_blob),
            ("access_base_reply(access_base_empty(), NULL)", no_text),
            ("access_base_reply(access_base_empty(), 5)", no_text),
            ("access_base_may(access_base_empty(), NULL, 1, 1, 1)", no_number),
            ("access_base_may(access_base_empty(), 1.5, 1, 1, 1)", no_number),
            ("access_base_may(access_base_empty(), '1', 1, 1, 1)", no_number),
            ("access_base_may(access_base_empty(), 1, 1, 1, 4294967296)", no_number),
            ("access_base_sheet(access_base_empty(), -1)", no_number),
            ("(SELECT count(*) FROM access_base_runs(access_base_empty(), 1, NULL, 1))", no_number),
            ("access_base_reply(zeroblob(50000000), '4 1 NEW 7')", "refused 2"),
            ("access_base_may(access_base_empty(), 1, 1, 1)", "wrong number of arguments"),
            ("(SELECT count(*) FROM access_base_runs)", r"give access_base_runs\(base, subject, mode, object\)"),
            ("(SELECT count(*) FROM access_base_rules)", "give one argument, the base"))))
        self.assertEqual(self.importer.one("SELECT access_base_is_sound(NULL), access_base_is_sound('x'), access_base_is_sound(5)"),
                         (None, 0, 0))

    def test_first_users_at_once(self):
        """Several users of a file that nobody made yet: each gets its block, and none an error."""
        users, rounds = 8, 4
        for n in range(rounds):
            path, told = os.path.join(FOLDER, f"first{n}.db"), multiprocessing.Queue()
            start = multiprocessing.Barrier(users)
            made = [multiprocessing.Process(target=first_user, args=(path, k, start, told)) for k in range(users)]
            for process in made:
                process.start()
            self.assertEqual([told.get(timeout=60) for _ in made], [""] * users)
            for process in made:
                process.join()
            store = stores.Sqlite(path)
            self.assertEqual(len(store.blocks()), users)
            self.assertEqual((store.check_store(), store.pragma("journal_mode")), ([], "wal"))

    def test_new_is_one_transaction(self):
        """A block whose requester cannot be entered is not made."""
        with self.assertRaisesRegex(stores.Fault, "a subject is a number from 1 to 1023"):
            self.importer.new("b", 1, 0, None, [("anna", 1), ("bert", 1024)])
        self.assertEqual(self.importer.blocks(), [])
        self.importer.new("b", 1, 0, None, [("anna", 1), ("bert", 1023)])
        self.assertEqual(self.importer.requesters("b"), [("anna", 1), ("bert", 1023)])

    def test_altered_file_is_found_out(self):
        self.importer.new("b", 1, 0)
        self.importer.put_as_written("b", ["4 1 NEW 7", "5 1 GRANT 1 7 2 50 200 y"])
        self.importer.db.execute("DROP TRIGGER journal_kept")
        self.importer.db.execute("UPDATE journal SET line = '5 1 GRANT 1 7 2 50 199 y' WHERE number = 2")
        self.assertIn("other bytes", self.importer.check("b"))
        self.importer.db.execute("INSERT INTO requesters VALUES (1, CAST(x'ff' AS TEXT), 1)")
        with self.assertRaisesRegex(stores.Fault, "has a text that is not UTF-8"):
            self.importer.requesters("b")

    def test_kill_clients(self):
        """kill -9 of every client in the middle of a load: nothing acknowledged is lost."""
        blocks = ["k1", "k2", "k3"]
        for block in blocks:
            self.importer.new(block, 1, 0)
            self.importer.put_as_written(block, ["0 1 NEW 7"])

        def kill(clients):
            for process in clients:
                os.kill(process.pid, signal.SIGKILL)
        self.importer.db.close()  # nobody but the clients has the file open: the next one recovers it
        acknowledged = run_clients(self.place, self.kind, blocks, SECONDS, kill)[2]
        self.assertGreater(os.path.getsize(self.place + "-wal"), 0, "the clients left nothing to recover")
        run = subprocess.run([METERS, "--store", self.place, "check"], capture_output=True, encoding="utf-8")
        self.assertEqual((run.returncode, run.stdout.count("they give the stored bytes")), (0, len(blocks)), run.stderr)
        self.assertFalse(os.path.exists(self.place + "-wal"), "somebody else had the file open")
        self.importer = stores.Sqlite(self.place)
        self.assert_kept(blocks, acknowledged, exactly=False)

    def test_full_disk(self):
        store = self.importer
        store.new("b", 1, 0)
        store.put_as_written("b", ["4 1 NEW 7"])
        pages = store.one("PRAGMA page_count")[0]
        store.one(f"PRAGMA max_page_count = {pages}")
        with self.assertRaisesRegex(stores.Fault, "disk is full"):
            store.put_as_written("b", ["5 1 NEW 8"] * 3000)
        store.one("PRAGMA max_page_count = 1000000")
        self.assertEqual(len(store.journal("b")), 1)
        self.assertIsNone(store.check("b"))
        self.assertEqual(store.put_as_written("b", ["5 1 NEW 8"]), ["done 0 0"])

    def test_file_that_may_not_grow(self):
        """A write that the system refuses half way: an error, and nothing of it is kept."""
        self.importer.new("b", 1, 0)
        self.importer.put_as_written("b", ["4 1 NEW 7"])

        def limit():
            signal.signal(signal.SIGXFSZ, signal.SIG_IGN)
            resource.setrlimit(resource.RLIMIT_FSIZE, (150_000, 150_000))
        lines = os.path.join(FOLDER, "many.txt")
        with open(lines, "w", encoding="ascii") as out:
            out.writelines(f"5 1 GRANT 1 7 {2 + i % 1000} {5 + i} {5 + i} n\n" for i in range(1000))
        run = subprocess.run([METERS, "--store", self.place, "put", "--as-written", "--file", lines, "b"], preexec_fn=limit, capture_output=True)
        self.assertEqual(run.returncode, 1, run.stderr)
        self.assertIn(b"disk", run.stderr)
        self.assertEqual(self.importer.check_store(), [])
        self.assertIsNone(self.importer.check("b"))

    @unittest.skipUnless(os.getuid() == 0, "not root, who alone can become somebody else")
    def test_read_only(self):
        def become_nobody():
            os.setgid(65534)
            os.setuid(65534)
        if subprocess.run(["test", "-r", METERS], preexec_fn=become_nobody).returncode != 0:
            self.skipTest("nobody may not read this folder")
        self.importer.new("b", 1, 0)
        self.importer.db.close()
        run = subprocess.run([METERS, "--store", self.place, "put", "--as-written", "b", "4", "1", "NEW", "7"], capture_output=True,
                             preexec_fn=become_nobody)
        self.assertEqual((run.returncode, run.stdout), (1, b""))
        self.assertRegex(run.stderr, b"read-only|cannot be opened")
        self.importer = stores.Sqlite(self.place)
        self.assertIsNone(self.importer.check("b"))

    def test_foreign_files(self):
        path = os.path.join(FOLDER, "foreign.db")
        with open(path, "wb") as out:
            out.write(b"not a database at all" * 100)
        with self.assertRaisesRegex(stores.Fault, "no SQLite database"):
            stores.Sqlite(path)
        os.remove(path)
        other = sqlite3.connect(path)
        other.execute("CREATE TABLE t(x)")
        other.close()
        with self.assertRaisesRegex(stores.Fault, "something else"):
            stores.Sqlite(path, create=True)
        os.remove(path)
        open(path, "wb").close()
        with self.assertRaisesRegex(stores.Fault, "is empty: make its first block"):
            stores.Sqlite(path)
        newer = stores.Sqlite(path, create=True)
        newer.one("PRAGMA user_version = 99")
        with self.assertRaisesRegex(stores.Fault, "another version of meters"):
            stores.Sqlite(path)


# ---- PostgreSQL
@needs_postgres
class PostgresStore(Store, unittest.TestCase):
    kind = "PostgreSQL"

    def setUp(self):
        super().setUp()
        self.place = socket_of("iris")
        self.importer = stores.Postgres(self.place)
        self.writer_role = "anna"
        self.importer.is_sound = lambda b: self.importer.one("SELECT access_base.is_sound(%s)", b)[0]
        self.importer.empty = lambda: bytes(self.importer.one("SELECT access_base.empty()")[0])
        self.name = "p " + self.name

    def sound_lengths(self, data):
        return [row[0] for row in self.importer.all(
            "SELECT n FROM generate_series(0, length(%s::bytea)) n WHERE access_base.is_sound(substr(%s::bytea, 1, n))", data, data)]

    def put(self, *requests, block=None):
        return stores.Postgres(socket_of("anna")).put(block or self.name, None, requests)

    def refused(self, store, *given):
        """Each statement, and what its error says."""
        for sql, pattern in given:
            with self.assertRaisesRegex(stores.Fault, pattern, msg=sql):
                store.one(sql)

    def test_roles(self):
        self.importer.new("roles", 1, 0)
        self.importer.put_as_written("roles", ["4 1 NEW 7"])
        self.importer.enrol("roles", "anna", 1)
        everybody = [stores.Postgres(socket_of(role)) for role in ("anna", "iris", "rita")]
        for store in everybody:
            for sql in ("UPDATE meters.blocks SET base = access_base.empty()", "DELETE FROM meters.journal", "DELETE FROM meters.blocks",
                        "INSERT INTO meters.journal(block, number, line, reply) VALUES (1, 99, 'x', 'y')", "TRUNCATE meters.journal",
                        "UPDATE meters.requesters SET subject = 1", "SET ROLE meters_owner", "DROP TABLE meters.journal",
                        "SELECT meters.put_lines(b, '{}') FROM meters.blocks b", "SELECT meters.lock_block('roles')",
                        "CREATE FUNCTION meters.f() RETURNS int LANGUAGE sql AS 'SELECT 1'", "SELECT 1 FROM meters.blocks FOR UPDATE",
                        "UPDATE meters.clocks SET requests = 0", "ALTER FUNCTION meters.put(text, text) SECURITY INVOKER",
                        "CREATE OR REPLACE FUNCTION access_base.empty() RETURNS bytea LANGUAGE sql AS 'SELECT NULL::bytea'"):
                self.refused(store, (sql, "permission denied|must be owner"))
        anna, iris, rita = everybody
        denied = "permission denied for function"
        self.refused(anna, ("SELECT meters.put_as_written('roles', ARRAY['4 5 NEW 9'])", denied),
                     ("SELECT meters.enrol('roles', 'anna', 2)", denied), ("SELECT meters.unenrol('roles', 'anna')", denied),
                     ("SELECT meters.new_block('another')", denied))
        self.refused(rita, ("SELECT meters.put('roles', 'NEW 9')", denied), ("SELECT meters.put_many('roles', '{NEW 9}')", denied))
        self.refused(iris, ("SELECT meters.put('roles', 'NEW 9')", denied))
        anna.one("SELECT set_config('search_path', 'pg_temp', false)")
        self.assertEqual(anna.one("SELECT meters.put('roles', 'NEW 9')")[0], "done 0 0")
        import psycopg
        with psycopg.connect(socket_of("nobody_there"), autocommit=True) as db, self.assertRaises(psycopg.errors.InsufficientPrivilege):
            db.execute("SELECT name FROM meters.blocks")
        self.assertIsNone(rita.check("roles"))

    def test_privileges(self):
        """All that is granted on anything in the schema, to anybody but its owner: reading, and the functions of each role."""
        granted = stores.Postgres(socket_of("postgres")).all("""
            SELECT grantee::regrole::text, name, privilege_type FROM (
              SELECT relname AS name, relacl AS acl, relowner AS owner FROM pg_class WHERE relnamespace = 'meters'::regnamespace
              UNION ALL SELECT attname, attacl, relowner FROM pg_attribute a JOIN pg_class c ON c.oid = attrelid
                WHERE relnamespace = 'meters'::regnamespace AND attacl IS NOT NULL
              UNION ALL SELECT proname, coalesce(proacl, acldefault('f', proowner)), proowner FROM pg_proc
                WHERE pronamespace = 'meters'::regnamespace
              UNION ALL SELECT nspname, nspacl, nspowner FROM pg_namespace WHERE nspname IN ('meters', 'access_base')) things,
              aclexplode(acl) WHERE grantee <> owner""")
        tables, imports = ("blocks", "clocks", "journal", "requesters"), ("put_as_written", "new_block", "enrol", "unenrol")
        self.assertEqual(sorted(granted), sorted(
            [("meters_reader", table, "SELECT") for table in tables]
            + [("meters_reader", name, "EXECUTE") for name in ("instant", "check_block")]
            + [("meters_writer", name, "EXECUTE") for name in ("put", "put_many")]
            + [("meters_importer", name, "EXECUTE") for name in imports]
            + [("meters_reader", "meters", "USAGE"), ("meters_reader", "access_base", "USAGE"), ("meters_owner", "access_base", "USAGE")]))

    def test_setup_is_guarded(self):
        """The schema is not made where somebody else could write past it: an owner who can log in or has members, or a schema for
        the extension that is somebody else's."""
        trial.psql("postgres", "-c", "CREATE DATABASE guarded")
        for before, after, told in (("ALTER ROLE meters_owner LOGIN", "ALTER ROLE meters_owner NOLOGIN", "can log in"),
                                    ("GRANT meters_owner TO anna", "REVOKE meters_owner FROM anna", "has members"),
                                    ("CREATE SCHEMA access_base AUTHORIZATION anna", "DROP SCHEMA access_base", "no superuser")):
            trial.psql("guarded", "-c", before)
            run = trial.make_schema("guarded", check=False, capture_output=True, encoding="utf-8")
            trial.psql("guarded", "-c", after)
            self.assertNotEqual(run.returncode, 0)
            self.assertIn(told, run.stderr)
        trial.make_schema("guarded", capture_output=True)
        trial.psql("postgres", "-c", "DROP DATABASE guarded")

    def test_socket_is_private(self):
        """The private server trusts whoever reaches its socket: nobody but its user may."""
        self.assertEqual(os.stat(f"{CLUSTER}/socket").st_mode & 0o777, 0o700)
        self.assertEqual(os.stat(f"{CLUSTER}/data").st_mode & 0o777, 0o700)

    def test_drop_extension_is_refused(self):
        with self.assertRaisesRegex(stores.Fault, "cannot drop extension"):
            stores.Postgres(socket_of("postgres")).one("DROP EXTENSION access_base")

    def test_arguments(self):
        one = stores.Postgres(socket_of("rita")).one
        self.assertEqual(one("SELECT access_base.may(NULL, 1, 1, 1, 1)")[0], None)
        self.assertEqual(one("SELECT access_base.runs(access_base.empty(), NULL, 1, 1)")[0], None)
        self.refused(
            stores.Postgres(socket_of("rita")),
            ("SELECT 'x'::bytea::access_base.base", 'violates check constraint "sound"'),
            ("SELECT access_base.may(access_base.empty(), 1, 1, 1, -1)", "instant is -1, which is not within 0 to 4294967295"),
            ("SELECT access_base.runs(access_base.empty(), 4294967296, 1, 1)", "subject is 4294967296, which is not within"),
            ("SELECT access_base.put(access_base.empty(), E'4 1 NEW 7\\n')", "not printable ASCII"),
            ("SELECT access_base.put('', '4 1 NEW 7')", "refused 2"),
            ("SELECT access_base.put(access_base.empty(), repeat('x', 1000000))", "more than 96 bytes"),
            ("SELECT access_base.authorizations('\\x00')", "refused 2"),
            (b"SELECT access_base.put(access_base.empty(), '4 1 NEW \xff')", "invalid byte sequence"))
        self.importer.new("arguments", 1, 0)
        self.refused(
            self.importer,
            ("SELECT meters.put_as_written('arguments', NULL)", "no line is given"),
            ("SELECT meters.put_as_written('arguments', ARRAY[NULL]::text[])", "a line is NULL"),
            ("SELECT meters.put_as_written(NULL, '{}')", "there is no block NULL"),
            ("SELECT meters.new_block(NULL)", "out of bounds"),
            ("SELECT meters.new_block('x', 0)", "out of bounds"),
            ("SELECT meters.new_block('x', 1, NULL)", "out of bounds"),
            ("SELECT meters.enrol('arguments', 'nobody_at_all', 1)", "there is no role 'nobody_at_all'"),
            ("SELECT meters.enrol('no block', 'anna', 1)", "there is no block 'no block'"),
            ("SELECT meters.enrol('arguments', 'anna', 1024)", "a subject is a number from 1 to 1023"))
        self.assertEqual(self.importer.put_as_written("arguments", []), [])

    def test_runs_are_multiranges(self):
        self.importer.new("ranges", 1, 0)
        self.importer.put_as_written("ranges", ["4 1 NEW 7", "5 1 GRANT 1 7 2 50 59 y", "5 1 GRANT 1 7 2 80 inf y"])
        row = self.importer.one("SELECT access_base.runs(base, 2, 1, 7)::text, access_base.runs(base, 2, 1, 7) @> 4294967295, "
                                "access_base.may(base, 2, 1, 7, 60) FROM meters.blocks WHERE name = 'ranges'")
        self.assertEqual(row, ("{[50,60),[80,)}", True, False))

    def test_kill_server(self):
        """kill -9 of the server in the middle of a load: after the restart nothing acknowledged is lost, replay is equal."""
        blocks = ["p k1", "p k2", "p k3"]
        for block in blocks:
            self.importer.new(block, 1, 0)
            self.importer.put_as_written(block, ["0 1 NEW 7"])

        def kill(clients):
            with open(f"{CLUSTER}/data/postmaster.pid", encoding="ascii") as file:
                os.kill(int(file.readline()), signal.SIGKILL)
        acknowledged = run_clients(self.place, self.kind, blocks, SECONDS, kill)[2]
        trial.cluster("start")
        self.importer = stores.Postgres(self.place)
        self.assert_kept(blocks, acknowledged, exactly=False)

    def test_full_disk(self):
        """A write that the system refuses half way, by a limit on the size of the server's files: an error, nothing of it is kept."""
        import psycopg
        with psycopg.connect(socket_of("postgres"), autocommit=True) as db:
            db.execute("ALTER TABLE meters.blocks ALTER base SET STORAGE EXTERNAL")
            db.execute("SELECT meters.new_block('full ' || n) FROM generate_series(1, 600) n")  # the file is longer than one of the log
            store = stores.Postgres(self.place)
            before, kept = store.base("full 1"), 0
            server = store.db.info.backend_pid
            limit_files(server, 16 << 20)
            with self.assertRaisesRegex(stores.Fault, "could not (extend file|write)"):
                for n in range(1, 600):
                    store.put_as_written(f"full {n}", ["4 1 NEW 7"] * 20)
                    kept = n
            limit_files(server, resource.RLIM_INFINITY)
            db.execute("ALTER TABLE meters.blocks ALTER base SET STORAGE EXTENDED")
        self.assertEqual(store.journal(f"full {kept + 1}"), [])
        self.assertEqual(store.base(f"full {kept + 1}"), before)
        self.assertIsNone(store.check(f"full {kept + 1}"))
        self.assertEqual(store.put_as_written(f"full {kept + 1}", ["4 1 NEW 7"]), ["done 0 0"])

    def test_read_only(self):
        self.importer.new("p read-only", 1, 0)
        store = stores.Postgres(self.place + "&options=-c%20default_transaction_read_only%3Don")
        with self.assertRaisesRegex(stores.Fault, "read-only transaction"):
            store.put_as_written("p read-only", ["4 1 NEW 7"])
        self.assertEqual(store.journal("p read-only"), [])

    def test_foreign_database(self):
        with self.assertRaisesRegex(stores.Fault, "has no blocks yet"):
            stores.Postgres(socket_of("postgres").replace("/meters?", "/postgres?"))
        with self.assertRaisesRegex(stores.Fault, "no connection"):
            stores.Postgres(socket_of("postgres").replace("/meters?", "/nowhere?"))

    def test_old_snapshot(self):
        """Under REPEATABLE READ a client that comes too late gets 40001 and nothing is lost."""
        import psycopg
        self.importer.new("snapshot", 1, 0)
        with psycopg.connect(self.place) as db:
            db.isolation_level = psycopg.IsolationLevel.REPEATABLE_READ
            db.execute("SELECT 1 FROM meters.blocks")
            self.importer.put_as_written("snapshot", ["junk"])
            with self.assertRaises(psycopg.errors.SerializationFailure):
                db.execute("SELECT meters.put_as_written('snapshot', ARRAY['4 1 NEW 7'])")
        self.assertIsNone(self.importer.check("snapshot"))
