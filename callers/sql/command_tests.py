"""The command `meters`, what README says of it, and the pictures, in a browser if there is one."""
import importlib.machinery
import io
import os
import re
import shlex
import shutil
import subprocess
import sys
import tempfile
import unittest
import xml.etree.ElementTree
from unittest import mock

from trial import CLUSTER, FOLDER, HERE, METERS, ROOT, needs_postgres


class Command(unittest.TestCase):
    def meters(self, *words, give="", status=0):
        """What the command says, on standard output or, with another status than 0, on standard error. It runs in this process."""
        files = [io.TextIOWrapper(io.BytesIO(data), encoding="utf-8") for data in (give.encode("latin-1"), b"", b"")]
        argv = ["meters", *map(os.fsdecode, words)]
        ended = 0
        with mock.patch.multiple(sys, argv=argv, stdin=files[0], stdout=files[1], stderr=files[2]):
            try:
                self.command.main()
            except SystemExit as end:
                ended = end.code or 0
        out, errors = ((file.flush(), file.buffer.getvalue().decode())[1] for file in files[1:])
        self.assertEqual(ended, status, f"{words}: {errors}")
        return errors if status else out

    def run_alone(self, *words, **more):
        """The command as a process of its own: its status and what it says on standard error."""
        run = subprocess.run([METERS, *words], stderr=subprocess.PIPE, cwd=self.folder, encoding="utf-8", **more)
        return run.returncode, run.stderr

    @classmethod
    def setUpClass(cls):
        cls.command = importlib.machinery.SourceFileLoader("command", METERS).load_module()

    def setUp(self):
        self.folder = tempfile.mkdtemp(dir=FOLDER)
        self.addCleanup(os.chdir, os.getcwd())
        os.chdir(self.folder)

    def test_session(self):
        """The README's session through the command, and everything around it."""
        readme = open(os.path.join(ROOT, "README.md"), encoding="utf-8").read()
        lines = readme.split("<<'END'\n")[1].split("END\n")[0]
        self.meters("new", "s")
        with open(os.path.join(ROOT, "crates", "session", "stdout"), encoding="ascii") as expected:
            self.assertEqual(self.meters("put", "--as-written", "s", give=lines).splitlines(), expected.read().splitlines()[:11])
        self.assertEqual(self.meters("ask", "s", "WHEN", "3", "1", "7"), "55-59 80-150\n")
        self.assertEqual(len(self.meters("journal", "s").splitlines()), 9)
        self.assertIn("authorizations: 4", self.meters("show", "s"))
        self.assertEqual(len(self.meters("sheet", "s", "7").splitlines()), 4)
        self.assertIn("refused 6", self.meters("sheet", "s", "8", status=1))
        self.assertIn("9 requests replayed", self.meters("check"))
        self.assertEqual(self.meters("put", "--as-written", "--quiet", "s", give="70 1 NEW 9\n70 1 NEW 9\nWHEN 3 1 7\n"),
                         "3 lines: 1 done, 1 refused\n")
        older = {"input": "71 1 NEW 10\n70 1 NEW 9\n", "stdout": subprocess.DEVNULL}
        self.assertEqual(self.run_alone("put", "--as-written", "--quiet", "s", **older),
                         (0, "meters: line 2 is the first, refused 4: the request is older than the last accepted one: "
                             "send requests in the order of their times\n"))

    def test_export_and_import(self):
        """The command that export tells makes a block with the same instants."""
        self.meters("new", "--unit", "minute", "--origin=-86400", "s")
        self.meters("put", "s", "NEW", "7")
        told = self.meters("export", "s", "it's s.base").splitlines()[1]
        words = shlex.split(told.replace("NAME", "t"))
        self.assertEqual(words[:2], ["meters", "import"])
        self.meters(*words[1:])
        self.assertEqual(self.meters("put", "t", "NEW", "8"), "done 0 0\n")
        listed = [line.split("\t")[2] for line in self.meters("blocks").splitlines()]
        self.assertEqual(listed[0], listed[1])
        self.assertIn("since 1969-12-31", listed[0])
        self.assertIn("exists: give another name", self.meters("export", "s", "it's s.base", status=1))
        self.assertIn("no sound base", self.meters("import", "u", METERS, status=1))
        self.assertIn("unit and origin that they were made with", self.meters("import", "--unit", "day", "u", "it's s.base", status=1))

    def test_requesters(self):
        self.meters("new", "--as", "anna", "--subject", "5", "b")
        self.meters("enrol", "b", "bert", "6")
        self.assertEqual(self.meters("requesters", "b"), "anna\tsubject 5\nbert\tsubject 6\n")
        self.meters("put", "--as", "bert", "b", "NEW", "7")
        self.meters("unenrol", "b", "bert")
        self.assertIn("no requester", self.meters("put", "--as", "bert", "b", "NEW", "8", status=1))
        self.assertIn("bert is no requester", self.meters("unenrol", "b", "bert", status=1))
        self.assertIn("6 NEW 7\tdone 0 0", self.meters("journal", "b"))

    @unittest.skipUnless(os.getuid() == 0, "not root, who alone can become somebody without a name")
    def test_user_without_a_name(self):
        """No block is made of which nobody is a requester."""
        os.chmod(self.folder, 0o777)

        def become_nameless():
            os.setgid(54321)
            os.setuid(54321)
        if subprocess.run(["test", "-r", METERS], preexec_fn=become_nameless).returncode != 0:
            self.skipTest("others may not read this folder")
        nameless = {"preexec_fn": become_nameless, "env": {"PATH": os.environ["PATH"]}, "stdout": subprocess.DEVNULL}
        told = (1, "meters: your user has no login name here: give one with --as NAME\n")
        self.assertEqual(self.run_alone("new", "b", **nameless), told)
        self.assertEqual(self.meters("blocks"), "")
        self.assertEqual(self.run_alone("new", "--as", "anna", "b", **nameless), (0, ""))
        self.assertEqual(self.meters("requesters", "b"), "anna\tsubject 1\n")
        self.assertEqual(self.run_alone("put", "b", "NEW", "7", **nameless), told)

    def test_dates(self):
        self.meters("new", "--unit", "day", "--origin", "2020-01-01", "d")
        self.meters("put", "d", "NEW", "1")
        self.assertEqual(self.meters("put", "d", "GRANT", "1", "1", "2", "now", "2099-12-31", "n"), "done 1 1\n")
        self.assertEqual(self.meters("ask", "d", "MAY", "2", "1", "1", "2099-12-31"), "yes\n")
        self.assertEqual(self.meters("ask", "d", "MAY", "2", "1", "1", "2100-01-01"), "no\n")

    def test_last_day(self):
        """A date as an end is the last instant of that day, a time is itself; as a start and in a question a date is its first."""
        self.meters("new", "s")
        day, last = 4070908800, 4070908800 + 86399  # 2099-01-01
        lines = ["NEW 1", "NEW 2", "GRANT 1 1 2 2099-01-01 2099-01-01 y", "DENY 1 1 2 2099-01-01T08:00 2099-01-01T09:00:01",
                 "REVOKEP 1 1 2 2099-01-01 2099-01-01", "REVOKEN 1 1 2 2099-01-01 2099-01-01",
                 "ADDRULE * 1 1 + WHENEVER * 1 2 + * * 2099-01-01 2099-01-01"]
        self.assertEqual(self.meters("put", "s", give="\n".join(lines)).splitlines(),
                         ["done 0 0", "done 0 0", "done 1 1", "done 2 2", "done 0 1", "done 0 0", "done 3 0"])
        put = [line.split("\t")[2].split(" ", 2)[2] for line in self.meters("journal", "s").splitlines()]
        self.assertEqual(put[2:], [f"GRANT 1 1 2 {day} {last} y", f"DENY 1 1 2 {day + 28800} {day + 32401}", f"REVOKEP 1 1 2 {day} {last}",
                                   f"REVOKEN 1 1 2 {day} {last}", f"ADDRULE * 1 1 + WHENEVER * 1 2 + * * {day} {last}"])
        self.meters("new", "--unit", "hour", "h")
        self.meters("put", "h", give="NEW 1\nGRANT 1 1 2 2099-01-01 2099-01-02 y\n")
        self.assertEqual(self.meters("ask", "h", "WHEN", "2", "1", "1"), f"{day // 3600}-{day // 3600 + 47}\n")
        self.assertEqual(self.meters("ask", "h", "MAY", "2", "1", "1", "2099-01-01"), "yes\n")
        self.assertEqual(self.meters("ask", "h", "MAY", "2", "1", "1", "2099-01-03"), "no\n")

    def test_messages(self):
        """What people get wrong: told with what to do, and nothing of it is put or made."""
        self.meters("new", "b")
        self.meters("new", "--unit", "day", "--origin", "2020-01-01", "d")
        self.meters("new", "--origin", "9999-01-01", "later")
        for told, *words in (
                ("2027-02-30, which is no date: write one like", "put", "b", "GRANT", "1", "7", "2", "now", "2027-02-30", "y"),
                ("31.1.2027, which is no date: write one like", "put", "b", "GRANT", "1", "7", "2", "now", "31.1.2027", "y"),
                ("2027-01-31T24:30, which is no date", "ask", "b", "MAY", "2", "1", "7", "2027-01-31T24:30"),
                ("before the block's first instant, 2020-01-01", "put", "d", "GRANT", "1", "7", "2", "2019-12-31", "inf", "y"),
                ("before the block's first instant, 1970-01-01", "ask", "b", "MAY", "2", "1", "7", "1969-12-31"),
                ("behind the block's last instant, 2106-02-07 06:28:14 UTC: write 'inf'",
                 "put", "b", "DENY", "1", "7", "2", "now", "2106-02-07"),
                ("its own now and requester: leave them out, or put it with --as-written", "put", "b", "4", "1", "NEW", "7"),
                ("its own now and requester", "put", "b", "inf", "1", "NEW", "7"),
                ("the request has a character that is not printable ASCII", "put", "b", "NEW", "ü"),
                ("the question has a character that is not printable ASCII", "ask", "b", "MAY", "ü"),
                ("the request has 97 bytes", "put", "b", "x" * 97),
                ("a question is MAY", "ask", "b", "NEW", "9"),
                ("not both", "put", "--file", METERS, "b", "NEW", "9"),
                ("now is outside the instants of block 'later'", "ask", "later", "MAY", "1", "1", "1", "now"),
                ("clock stands outside the instants", "put", "later", "NEW", "1"),
                ("there is no block 'u': 'meters blocks' lists them", "ask", "u", "WHEN", "3", "1", "7"),
                ("there is no block 'u'", "enrol", "u", "anna", "1"),
                ("there is no block 'u'", "unenrol", "u", "anna"),
                ("there is no block 'u'", "requesters", "u"),
                ("of that name already", "new", "b"),
                ("no control character", "new", "a\x1b[31mb"),
                ("nothing.db: make it with 'meters new BLOCK'", "--store", "nothing.db", "blocks"),
                ("pictures are written as FILE.svg or FILE.html", "timeline", "b", "7", "--out", "x.png")):
            self.assertIn(told, self.meters(*words, status=1))
        for told, *words in (
                ("is not UTF-8: write the name in UTF-8", "new", b"\xff"),
                ("is not UTF-8", "put", "--as", b"\xff", "b", "NEW", "7"),
                ("is not UTF-8", "enrol", "b", b"\xff", "1"),
                ("not allowed with argument --as", "put", "--as", "anna", "--as-written", "b", "4", "1", "NEW", "7"),
                ("nor seconds since 1970", "new", "--origin", "99999999999999999999", "x"),
                ("nor seconds since 1970", "new", "--origin", "1000000000001", "x"),
                ("is no date like 2020-01-01", "new", "--origin", "2020-02-30", "x"),
                ("number of seconds from 1 to", "new", "--unit", "0", "x"),
                ("number of seconds from 1 to", "new", "--unit", "9" * 5000, "x"),
                ("is no number from 1 to 1023", "enrol", "b", "anna", "1024")):
            self.assertIn(told, self.meters(*words, status=2))
        for told, lines, *words in (("line 2 has 2027-13-01, which is no date", "NEW 1\nDENY 1 1 2 now 2027-13-01\n", "b"),
                                    ("line 2 has a character", "4 1 NEW 9\n4 1 NEW \xff9\n", "--as-written", "b")):
            self.assertIn(told, self.meters("put", *words, give=lines, status=1))
        self.assertEqual(self.meters("journal", "b") + self.meters("journal", "d"), "")
        self.assertEqual(self.meters("blocks").count("\n"), 3)
        self.assertEqual(self.meters("put", "b", give="NEW 7\nMAY 1 1 7 now\nMAY 1 1 7 2030-01-01\nWHEN 1 1 7\n"),
                         "done 0 0\nno\nno\nnone\n")
        self.assertEqual(self.meters("put", "b", "MAY", "1", "1", "7", "now"), "no\n")
        with open("/dev/full", "wb") as full:
            self.assertEqual(self.run_alone("blocks", stdout=full), (1, "meters: the output cannot be written: No space left on device\n"))

    def test_help(self):
        """Every command, and every argument of every command, says what it is."""
        commands = next(action for action in self.command.parser()._actions if action.choices and not action.option_strings)
        self.assertGreater(len(commands.choices), 14)
        for name, sub in commands.choices.items():
            self.assertTrue(sub.description, name)
            for action in sub._actions:
                self.assertTrue(action.help, f"{name} {action.dest}")
        for name, words in (("put", "REVOKEP MODE OBJECT SUBJECT START END"), ("put", "as END the last"), ("ask", "ask birch WHEN 2 1 7"),
                            ("journal", "parted by tabs"), ("export", "how to import it"), ("enrol", "enrol birch anna 2")):
            self.assertIn(words, self.meters(name, "--help"))

    def test_pictures(self):
        """Both pictures are well-formed and say what is in them, and a browser shows them if there is one."""
        self.meters("new", "elm")
        with open(os.path.join(HERE, "picture.txt"), encoding="ascii") as file:
            self.meters("put", "--as-written", "elm", give=file.read())
        names = os.path.join(self.folder, "names")
        with open(names, "w", encoding="utf-8") as out:
            out.write("subject 2 <Agent> & Söhne\nmode 1 read\n")
        def told(*words):
            tree = xml.etree.ElementTree.fromstring(self.meters(*words))
            return " | ".join("".join(part.itertext()) for part in tree.iter("{http://www.w3.org/2000/svg}text"))
        for picture, words in (("timeline", ["subject 9", "everybody else", "50–59", "#4 withdrawn", "Rule #11"]),
                               ("chains", ["administrator", "#4 →", "denied 60, withdrawn"])):
            for word in words:
                self.assertIn(word, told(picture, "elm", "7"))
            self.assertIn("<Agent>", told(picture, "--names", names, "elm", "7"))
            self.meters(picture, "elm", "7", "--out", picture + ".html")
        self.assertIn("has no meter 9", self.meters("timeline", "elm", "9", status=1))
        self.browser()

    def readme(self, heading):
        """The lines to copy and paste under a heading of README, with the blocks' files and the cluster in places of the tests' own."""
        with open(os.path.join(ROOT, "README.md"), encoding="utf-8") as file:
            return file.read().split(f"## {heading}\n")[1].split("```\n")[1].splitlines()

    def test_readme(self):
        """What README says of the SQLite file, as it stands there."""
        os.symlink(os.path.join(ROOT, "callers"), "callers")
        told = [self.meters(*shlex.split(line)[1:]) for line in self.readme("Keep blocks in a file, and look at them")]
        self.assertEqual(told[1:5], ["done 0 0\n", "done 1 1\n", "done 2 2\n", "yes\n"])
        self.assertIn("3 requests replayed", told[6])
        self.assertIn("15 lines: 15 done, 0 refused", told[8])
        for page in ("timeline.html", "chains.html"):
            self.assertGreater(os.path.getsize(page), 5_000)

    @needs_postgres
    def test_readme_of_postgres(self):
        """What README says of PostgreSQL, with another database and other roles on the tests' server."""
        lines = [line for line in self.readme("Keep blocks in PostgreSQL") if not re.match("apt-get|.*private_cluster", line)]
        script = "\n".join(lines)
        for old, new in (("/tmp/cluster", CLUSTER), ("DATABASE meters", "DATABASE readme"), ("-d meters", "-d readme"),
                         ("///meters?", "///readme?"), ("iris", "ivo"), ("anna", "ada"), ("callers/", ROOT + "/callers/"), ("./meters", METERS)):
            self.assertIn(old, script)
            script = script.replace(old, new)
        run = subprocess.run(["bash", "-eu"], input=script, capture_output=True, encoding="utf-8")
        self.assertEqual(run.returncode, 0, run.stderr)
        for words in ("15 lines: 15 done, 0 refused", "ada is subject 1", "done 12 11\nyes\n", "16 requests replayed",
                      "{[1710460800,1714521600),"):
            self.assertIn(words, run.stdout)

    def test_example_pictures(self):
        """README's pictures are what its commands write."""
        example = os.path.join(ROOT, "callers", "meters", "example")
        self.meters("new", "birch")
        self.meters("put", "--as-written", "--file", f"{example}/requests.txt", "birch")
        for picture in ("timeline", "chains"):
            with open(f"{example}/{picture}.svg", encoding="utf-8") as file:
                self.assertEqual(self.meters(picture, "birch", "12", "--names", f"{example}/names.txt"), file.read(),
                                 f"write it again: meters {picture} birch 12 --names .. --out {picture}.svg")

    def test_characters_in_pictures(self):
        """Whatever a name has in it, a picture is well-formed."""
        self.meters("new", "<b> & \"q\"")
        self.meters("put", "--as-written", "<b> & \"q\"", give="4 1 NEW 7\n5 1 GRANT 1 7 2 50 200 y\n")
        with open(os.path.join(self.folder, "names"), "w", encoding="utf-8") as out:
            out.write("subject 2 a\x01b\x1b[31m\ufffe\nmeter 7 \x00 <m>\n")
        for picture in ("timeline", "chains"):
            told = "".join(xml.etree.ElementTree.fromstring(self.meters(picture, "--names", "names", "<b> & \"q\"", "7")).itertext())
            self.assertIn("a\ufffdb\ufffd[31m\ufffd", told)
            self.assertIn("Meter 7 (\ufffd <m>) of block <b> & \"q\"", told)

    def browser(self):
        """Both pictures in Chromium: not blank, and no text is cut off, lies on another, or is longer than its bar. The second one is
        put into the page of the first: a browser takes a while to start."""
        if os.environ.get("METERS_NO_BROWSER") or not shutil.which("chromium"):
            return
        page, png = os.path.join(self.folder, "both.html"), os.path.join(self.folder, "both.png")
        timeline, chains = (open(name + ".html", encoding="utf-8").read() for name in ("timeline", "chains"))
        with open(page, "w", encoding="utf-8") as out:
            out.write(timeline.replace("</main>", chains.split("<main>")[1].split("</main>")[0] + "</main>") + LOOK)
        look = ["chromium", "--headless=new", "--no-sandbox", "--disable-gpu", "--disable-dev-shm-usage",
                f"--user-data-dir={self.folder}/profile", f"--screenshot={png}", "--dump-dom", "--window-size=1500,1500", f"file://{page}"]
        try:
            run = subprocess.run(look, capture_output=True, timeout=120, encoding="utf-8")
        except subprocess.TimeoutExpired:  # a browser that starts slowly is no fault of the picture
            run = subprocess.run(look, capture_output=True, timeout=300, encoding="utf-8")
        self.assertGreater(os.path.getsize(png), 40_000, "the page is blank")
        self.assertRegex(run.stdout, r"<title>2 pictures; [1-9]\d\d texts\.</title>")


# says in the page's title how many pictures and texts it has, and what is wrong with them
LOOK = """<script>
const texts = [...document.querySelectorAll('svg text')], box = x => x.getBoundingClientRect();
const faults = [];
texts.forEach((text, i) => {
    const page = box(text.closest('svg'));
    const a = box(text), bar = text.classList.contains('in') ? box(text.previousElementSibling) : page;
    if (a.left < bar.left || a.right > bar.right || a.bottom > page.bottom) faults.push(text.textContent + ' is cut off');
    for (const other of texts.slice(i + 1)) {
        const b = box(other);
        if (Math.min(a.right, b.right) - Math.max(a.left, b.left) > 1 && Math.min(a.bottom, b.bottom) - Math.max(a.top, b.top) > 3)
            faults.push(text.textContent + ' lies on ' + other.textContent);
    }
});
document.title = [document.querySelectorAll('svg').length + ' pictures', texts.length + ' texts', ...faults].join('; ') + '.';
</script>"""
