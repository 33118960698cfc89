"""The ground that the tests and the figures stand on: a folder of their own, the private cluster with its roles, and clients that put
requests. callers/sql/test names it all in the environment: METERS_POSTGRES the folder of a private cluster (without it PostgreSQL's
tests are left out), METERS_ORACLE the folder with the programs `examples/replies` and `lines` of the independent implementation and of
the Rust callers' random sessions (without it the comparison with them is left out), METERS_SECONDS how long each load runs."""
import atexit
import glob
import multiprocessing
import os
import random
import shutil
import signal
import subprocess
import sys
import tempfile
import time
import unittest

HERE = os.path.dirname(os.path.realpath(__file__))
ROOT = os.path.dirname(os.path.dirname(HERE))
sys.path.insert(0, os.path.join(ROOT, "callers", "meters"))
import stores  # noqa: E402

METERS = os.path.join(ROOT, "callers", "meters", "meters")
CLUSTER = os.environ.get("METERS_POSTGRES")
ORACLE = os.environ.get("METERS_ORACLE")
SECONDS = float(os.environ.get("METERS_SECONDS", "2"))
CLIENTS = 16
ROLES = {"meters_writer": "anna", "meters_importer": "iris", "meters_reader": "rita"}
FOLDER = tempfile.mkdtemp(prefix="meters-")
MAKER = os.getpid()


@atexit.register
def take_down():
    if os.getpid() == MAKER:
        shutil.rmtree(FOLDER)


def socket_of(role):
    return f"postgresql:///meters?host={CLUSTER}/socket&user={role}"


def psql(database, *words, **more):
    """psql as the superuser."""
    return subprocess.run(["psql", "-q", "-h", f"{CLUSTER}/socket", "-U", "postgres", "-d", database, *words], **{"check": True, **more})


def make_schema(database, **more):
    return psql(database, "-f", os.path.join(HERE, "postgres", "schema.sql"), **more)


def set_up():
    os.chmod(FOLDER, 0o755)
    if CLUSTER:
        psql("postgres", "-c", "CREATE DATABASE meters")
        make_schema("meters", stdout=subprocess.DEVNULL)
        for group, name in ROLES.items():
            psql("meters", "-c", f"CREATE ROLE {name} LOGIN IN ROLE {group}")
        psql("meters", "-c", "CREATE ROLE nobody_there LOGIN")


def cluster(action):
    subprocess.run([os.path.join(HERE, "private_cluster"), action, CLUSTER], check=True)


def sqlite_store():
    place = tempfile.mkdtemp(dir=FOLDER)
    os.chmod(place, 0o755)
    return stores.Sqlite(os.path.join(place, "meters.db"), create=True)


def needs_postgres(test):
    return unittest.skipUnless(CLUSTER, "no PostgreSQL")(test)


# ---- clients
def client(place, k, blocks, acknowledged, seconds, results):
    """Puts lines of its own, each another, and writes down each reply as soon as it has it."""
    signal.signal(signal.SIGTERM, signal.SIG_DFL)
    dice, count, worst, told = random.Random(k), 0, 0.0, ""
    with open(f"{acknowledged}/{k}.acknowledged", "w", buffering=1, encoding="ascii") as out:
        try:
            store = stores.open_store(place)
            end = time.time() + seconds
            while time.time() < end or count == 0:
                count += 1
                block, start = dice.choice(blocks), 1000 + k * 10_000_000 + count
                line = f"0 1 GRANT 1 7 {k + 2} {start} {start} n" if count % 2 else f"0 1 REVOKEP 1 7 {k + 2} 0 {start}"
                began = time.time()
                (reply,) = store.put_as_written(block, [line])
                worst = max(worst, time.time() - began)
                out.write(f"{block}\t{line}\t{reply}\n")
        except stores.Fault as fault:
            told = str(fault)
        finally:
            results.put((count, worst, told))


def run_clients(place, kind, blocks, seconds, meanwhile=None, count=CLIENTS):
    """The clients' load for so many seconds; or, with something to do in the middle of it, until the clients end by that. Gives how many
    requests each put, the longest wait of one, and the folder where each wrote down what was acknowledged."""
    acknowledged = os.path.join(FOLDER, kind)
    os.makedirs(acknowledged, exist_ok=True)
    results = multiprocessing.Queue()
    given = (600 if meanwhile else seconds, results)
    clients = [multiprocessing.Process(target=client, args=(place, k, blocks, acknowledged, *given)) for k in range(count)]
    for process in clients:
        process.start()
    told = []
    if meanwhile:
        time.sleep(seconds / 2)
        end = time.time() + 120
        while time.time() < end and not any(os.path.getsize(path) for path in glob.glob(acknowledged + "/*.acknowledged")):
            time.sleep(0.1)
        meanwhile(clients)
    else:
        told = [results.get(timeout=seconds + 300) for _ in clients]
        assert not any(fault for _, _, fault in told), told
    for process in clients:
        process.join(120)
    return [count for count, _, _ in told], max((worst for _, worst, _ in told), default=0), acknowledged
