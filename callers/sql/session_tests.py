"""The same sessions as the C and Rust callers, through SQL, in both engines."""
import glob
import os
import subprocess
import sys
import unittest

from trial import CLUSTER, ORACLE, ROOT, socket_of, sqlite_store, stores


def transcripts():
    """The stored sessions: for each case its lines and replies."""
    for path in sorted(glob.glob(os.path.join(ROOT, "crates", "vectors", "data", "*.txt"))):
        if path.endswith("wrong.txt"):
            continue
        lines, replies = [], []
        for line in open(path, encoding="latin-1").read().split("\n") + ["# end"]:
            if line.startswith("# "):
                if lines:
                    yield lines, replies
                lines, replies = [], []
            elif line.startswith("> ") or line == ">":
                lines.append(line[2:])
            elif line.startswith("< "):
                replies.append(line[2:])


def callers_sessions():
    """The Rust callers' random sessions in text that start with an empty base."""
    told = subprocess.run([ORACLE + "/lines", "1500", "4000000"], capture_output=True, encoding="ascii", check=True).stdout
    lines = iter(told.split("\n")[:-1])
    for count in lines:
        yield [next(lines) for _ in range(int(count))]


def printable(line):
    return stores.line_fault(line) is None


def oracle_says(sessions):
    """For each session, for each line the reply and the base after it, by the independent implementation."""
    text = "".join(f"{len(lines)}\n" + "".join(line + "\n" for line in lines) for lines in sessions)
    out = subprocess.run([ORACLE + "/examples/replies"], input=text, capture_output=True, encoding="latin-1", check=True).stdout.split("\n")
    told = iter(out)
    for lines in sessions:
        base, answers = None, []
        for _ in lines:
            reply, after = next(told).split("\t")
            base = bytes.fromhex(after).ljust(stores.BASE_BYTES, b"\0") if after else base
            answers.append((reply, base))
        yield answers


def engines():
    """Each engine's put on values, and the empty base."""
    lite = sqlite_store()
    out = [("SQLite", lite.put_once, lite.one("SELECT access_base_empty()")[0])]
    if CLUSTER:
        post = stores.Postgres(socket_of("rita"))
        empty = bytes(post.one("SELECT access_base.empty()")[0])

        def put(base, line):
            reply, after = post.one("SELECT reply, after FROM access_base.put(%s, %s)", base, line)
            return reply, bytes(after)
        out.append(("PostgreSQL", put, empty))
    return out


class Sessions(unittest.TestCase):
    def test_sessions(self):
        """Through SQL, reply by reply: the stored sessions, session S of the C and Rust callers among them, against their transcripts;
        and these and the Rust callers' random ones against the independent implementation, with every byte after every line."""
        stored = [[(line, reply) for line, reply in zip(*session) if printable(line)] for session in transcripts()]
        self.replay(stored, 3_500)
        if ORACLE:
            self.replay([[(line, None) for line in lines] for lines in callers_sessions()], 1_400)
        else:
            print("  not compared with the independent implementation", file=sys.stderr)

    def replay(self, sessions, least):
        """Sessions of lines, each with the reply it should have or None, in every engine."""
        put_to, done = 0, 0
        told = oracle_says([[line for line, _ in session] for session in sessions]) if ORACLE else [None] * len(sessions)
        for session, answers in zip(sessions, told):
            ends = []
            for name, put, base in self.engines:
                for i, (line, expected) in enumerate(session):
                    before = base
                    reply, base = put(base, line)
                    said, after = answers[i] if answers else (reply, base)
                    self.assertEqual((reply, reply), (expected or reply, said), f"{name}: {line}")
                    self.assertEqual(base, before if after is None else after, f"{name}: the bytes after {line}")
                    put_to, done = put_to + 1, done + reply.startswith("done")
                ends.append(base)
            self.assertTrue(all(base == ends[0] for base in ends), "the engines give other bytes")
        self.assertGreater(put_to, least * len(self.engines), "hardly anything was compared")
        self.assertGreater(done, put_to / 4, "hardly any request was carried out")
        print(f"  {put_to} lines agree", file=sys.stderr)

    @classmethod
    def setUpClass(cls):
        cls.engines = engines()
