#!/usr/bin/python3
"""How fast the stores are: requests and questions a second, and a chain of 800 delegations beside PostgreSQL's own GRANT and REVOKE.
usage: figures.py CLUSTER, a folder that `private_cluster start` filled; callers/sql/test must have built the extension. Prints the
tables of docs/BENCHMARKS.md, and the machine's load before and after."""
import contextlib
import multiprocessing
import os
import sys
import time

os.environ["METERS_POSTGRES"] = os.path.realpath(sys.argv[1])
import trial  # noqa: E402
from trial import stores  # noqa: E402

SECONDS, CHAIN = 4, 800


def filled(lines):
    """A block's first lines: a meter, and so many authorizations that stand."""
    return ["0 1 NEW 7"] + [f"0 1 GRANT {1 + i % 8} 7 {20 + i} {100 + i} {5000 + i} n" for i in range(lines)]


def requests(kind, place, blocks, clients, lines):
    store = stores.open_store(place)
    for block in blocks:
        store.new(block, 1, 0)
        store.put_as_written(block, filled(lines))
    counts, worst, _ = trial.run_clients(place, kind, blocks, SECONDS, count=clients)
    print(f"| {kind} | {clients} | {len(blocks)} | {lines} | {sum(counts) / SECONDS:,.0f} | {worst * 1000:,.0f} ms |", flush=True)


MAY = {"SQLite": "SELECT access_base_may(base, 30, 3, 7, 150) FROM blocks WHERE name = '{}'",
       "PostgreSQL": "SELECT access_base.may(base, 30, 3, 7, 150) FROM meters.blocks WHERE name = '{}'"}


def asker(kind, place, block, start, counts):
    store = stores.open_store(place)
    start.wait()
    end, count = time.time() + SECONDS, 0
    while time.time() < end:
        store.one(MAY[kind].format(block))
        count += 1
    counts.put(count)


def questions(kind, place, block, clients, lines):
    start, counts = multiprocessing.Barrier(clients), multiprocessing.Queue()
    askers = [multiprocessing.Process(target=asker, args=(kind, place, block, start, counts)) for _ in range(clients)]
    for process in askers:
        process.start()
    total = sum(counts.get() for _ in askers)
    for process in askers:
        process.join()
    print(f"| {kind} | {clients} | {lines} | {total / SECONDS:,.0f} |", flush=True)


def timed(work):
    began = time.time()
    work()
    return (time.time() - began) * 1000


def chain_in_base(store, block, together):
    store.new(block, 1, 0)
    store.put_as_written(block, ["0 1 NEW 7"])
    lines = [f"{i} {i} GRANT 1 7 {i + 1} 1000 2000 y" for i in range(1, CHAIN + 1)]
    given = timed(lambda: [store.put_as_written(block, part) for part in ([lines] if together else [[line] for line in lines])])
    taken = timed(lambda: store.put_as_written(block, [f"{CHAIN + 1} 1 REVOKEP 1 7 2 0 inf"]))
    assert store.records(store.base(block), "authorizations") == []
    return given, taken


def roles(db):
    db.execute("CREATE TABLE chain(x int)")
    for i in range(CHAIN + 1):
        db.execute(f"CREATE ROLE chain{i}")
    db.execute("ALTER TABLE chain OWNER TO chain0")


def chain_of_grants(db, together):
    def give():
        with db.transaction() if together else contextlib.nullcontext():
            for i in range(CHAIN):
                db.execute(f"SET ROLE chain{i}")
                db.execute(f"GRANT SELECT ON chain TO chain{i + 1} WITH GRANT OPTION")

    def take():
        db.execute("SET ROLE chain0")
        db.execute("REVOKE SELECT ON chain FROM chain1 CASCADE")
    given, taken = timed(give), timed(take)
    db.execute("RESET ROLE")
    return given, taken


def chain(name, run):
    (each, _), (together, taken) = run(False), run(True)
    print(f"| {name} | {each:,.0f} ms | {together:,.0f} ms | {taken:.1f} ms |", flush=True)


def main():
    print("load before: %.1f, %.1f, %.1f on %d cores" % (*os.getloadavg(), os.cpu_count()))
    trial.set_up()
    lite = trial.sqlite_store()
    post = trial.socket_of("iris")
    print("| store | clients | blocks | authorizations in each | requests a second | longest wait |\n|---|---|---|---|---|---|")
    for kind, place in (("SQLite", lite.path), ("PostgreSQL", post)):
        for number, (blocks, clients, lines) in enumerate(((1, 1, 0), (1, 16, 0), (20, 16, 0), (1, 1, 900))):
            requests(kind, place, [f"f{number} {i}" for i in range(blocks)], clients, lines)
    print("\n| store | clients | authorizations in the block | MAY a second |\n|---|---|---|---|")
    for kind, place in (("SQLite", lite.path), ("PostgreSQL", post)):
        for number, clients, lines in ((0, 1, 0), (0, 16, 0), (3, 1, 900), (3, 16, 900)):
            questions(kind, place, f"f{number} 0", clients, lines)
    print(f"\n| a chain of {CHAIN} delegations | each in a transaction | all in one | the first withdrawn, and all with it |\n|---|---|---|---|")
    import psycopg
    with psycopg.connect(trial.socket_of("postgres"), autocommit=True) as db:
        roles(db)
        chain("PostgreSQL's own GRANT .. WITH GRANT OPTION, REVOKE .. CASCADE", lambda together: chain_of_grants(db, together))
    for kind, store in (("PostgreSQL", stores.Postgres(post)), ("SQLite", lite)):
        chain(f"the base in {kind}", lambda together: chain_in_base(store, f"chain {together}", together))
    print("\nload after: %.1f, %.1f, %.1f" % os.getloadavg())


if __name__ == "__main__":
    main()
