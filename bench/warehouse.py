#!/usr/bin/env python3
"""What a warehouse costs, in one run with a PostgreSQL of its own:

    bench/warehouse.py [RECORDS [WAREHOUSE]]

An archive of format 3 with RECORDS records (1,000,000) of 100 logs is loaded by examples/use/warehouse/load, beside
`sqlite3 -csv | COPY` into bac.records, and into a table with its key alone; then loaded again, with nothing new. With WAREHOUSE
(100,000,000) as many records of 10 sites of 286 logs, one a quarter of an hour, are put by generate_series, and one log's day
is asked for. A line a measure, in seconds. 10^8 records take 17 GB and some ten minutes. Run it where nothing else runs."""
import os
import shutil
import subprocess
import sys
import tempfile
import time

sys.path.insert(0, os.path.join(os.path.dirname(os.path.realpath(__file__)), "../examples/check"))
from page_archives import FORMAT_3
from warehouse_files import USE, Server, is_installed, opened

LOGS, SITES, SITE_LOGS = 100, 10, 286
COPIED = ("SELECT 9, id >> 47, (id >> 32) & 32767, id & 4294967295, substr(stamp, 1, 19) || 'Z', value, stamp, datum, flags"
          " FROM items WHERE last IS NULL")
SERIES = """INSERT INTO bac.records SELECT s, l, 1, q, '2020-01-01Z'::timestamptz + q * interval '15 minutes', q % 97 / 4.0,
    '2020-01-01T00:00:00.00', 'real 21.5', '' FROM generate_series(101, 100 + {sites}) s, generate_series(1, {logs}) l,
    generate_series(1, {quarters}) q"""
DAY = """SELECT number, at, value FROM bac.trends WHERE site = 'site 7' AND device = 7 AND trend_log = 123
    AND at >= '2020-06-07Z' AND at < '2020-06-08Z' ORDER BY at"""


def archive(file, records):
    """An archive of so many records, with the tables of format 3."""
    with opened(file) as base:
        base.executescript(FORMAT_3)
        base.execute("INSERT INTO devices VALUES (1, '10.0.0.1:47808', 0, '', 1, 'AHU', 7, 1, 0, NULL, 0)")
        base.executemany("INSERT INTO logs VALUES (?, 1, ?, 'log', 'AI 1 Present_Value', 'degrees Celsius', NULL, NULL, 7, 0)",
                         [(log, log) for log in range(1, LOGS + 1)])
        base.executemany("INSERT INTO beginnings VALUES (?, 1, NULL)", [((log << 15) + 1,) for log in range(1, LOGS + 1)])
        base.executemany("INSERT INTO items VALUES (?, NULL, strftime('%Y-%m-%dT%H:%M:%S', ?, 'unixepoch') || '.00', ?, ?, '')", (
            ((((log << 15) + 1) << 32) + number, 1577836800 + 900 * number, number % 97 / 4, f"real {number % 97 / 4}")
            for log in range(1, LOGS + 1) for number in range(1, records // LOGS + 1)))
        base.commit()


def told(name, act):
    """Does this, and prints how long it took."""
    began = time.monotonic()
    found = act()
    print(f"{name}: {time.monotonic() - began:.2f}", flush=True)
    return found


def copied(server, file, table):
    """Copies the records of a file into a table by sqlite3 and psql alone."""
    copy = f"COPY {table} (site, log, epoch, number, at, value, stamp, datum, flags) FROM STDIN CSV"
    words = f"sqlite3 -csv '{file}' \"{COPIED}\" | psql -X -q -v ON_ERROR_STOP=1 -c '{copy}'"
    subprocess.run(["bash", "-o", "pipefail", "-c", words], env=server.surroundings, check=True)


def loads(server, room, records):
    """An archive is loaded, beside a plain copy."""
    file = f"{room}/site.db"
    archive(file, records)
    server.ran("CREATE TABLE bac.plain (LIKE bac.records, PRIMARY KEY (site, log, epoch, number))")
    for turn in range(2):
        told(f"sqlite3 | COPY of {records} records, key and index", lambda: copied(server, file, "bac.records"))
        told(f"sqlite3 | COPY of {records} records, key alone", lambda: copied(server, file, "bac.plain"))
        came = told(f"load of {records} records", lambda: server.load(f"plant {turn}", file, "--zone=Europe/Berlin"))
        assert came == (0, f"{records} items\n", ""), came
        assert told("load with nothing new", lambda: server.load(f"plant {turn}", file)) == (0, "0 items\n", "")
        server.ran("TRUNCATE bac.plain", "DELETE FROM bac.records WHERE site = 9", "VACUUM bac.records")


def day(server, records):
    """A log's day out of many sites' records."""
    quarters = records // SITES // SITE_LOGS
    server.ran("ALTER TABLE bac.records DROP CONSTRAINT records_pkey", "DROP INDEX bac.records_at",
               "TRUNCATE bac.records", "ALTER TABLE bac.records SET UNLOGGED")
    for site in range(101, 101 + SITES):
        server.rows(f"INSERT INTO bac.sites OVERRIDING SYSTEM VALUE VALUES ({site}, 'site {site - 100}') RETURNING 1")
        server.rows(f"INSERT INTO bac.devices (site, device, address, dnet, dadr, instance) VALUES ({site}, 1, '10.0.0.1:47808', 0, '',"
                    f" {site - 100}) RETURNING 1")
        server.rows("INSERT INTO bac.logs (site, log, device, instance, stopped)"
                    f" SELECT {site}, l, 1, l, false FROM generate_series(1, {SITE_LOGS}) l RETURNING 1")
    assert server.ran(SERIES.format(sites=SITES, logs=SITE_LOGS, quarters=quarters))[0] == 0
    assert server.ran("ALTER TABLE bac.records ADD PRIMARY KEY (site, log, epoch, number)",
                      "CREATE INDEX records_at ON bac.records (site, log, at)", "ANALYZE")[0] == 0
    print("records:", server.rows("SELECT count(*) FROM bac.records")[0][0], flush=True)
    for question in ("a log's day", "the same again"):
        plan = server.rows(f"EXPLAIN (ANALYZE, BUFFERS) {DAY}")
        print(f"{question} of {len(server.rows(DAY))} records:", plan[-1][0].splitlines()[-1].strip(), flush=True)
    print("\n".join(line for row in plan for line in row[0].splitlines() if "Scan" in line or "Index" in line), flush=True)


def main():
    if not is_installed():
        sys.exit("no PostgreSQL is here, and none could be installed")
    records, warehouse = (int(word) for word in (sys.argv[1:] + ["1000000", "100000000"][len(sys.argv) - 1:])[:2])
    room = tempfile.mkdtemp(prefix="bac-warehouse-")
    server = Server(f"{room}/server")
    try:
        assert server.script("-f", f"{USE}/warehouse.sql")[0] == 0
        assert server.ran("CREATE ROLE loader LOGIN IN ROLE bac_loader")[0] == 0
        loads(server, room, records)
        if warehouse:
            day(server, warehouse)
    finally:
        server.close()
        shutil.rmtree(room)


if __name__ == "__main__":
    main()
