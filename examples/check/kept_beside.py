"""A case of `bac keep` and `bac kept` over an archive beside which others keep tables, indexes and views."""
import sqlite3

from kept_rounds import one, said

BESIDE = ("ANALYZE", "CREATE TABLE people (name TEXT)", "INSERT INTO people VALUES ('Ada')",
          "CREATE UNIQUE INDEX one_name ON people (name)", "CREATE INDEX by_stamp ON items (stamp)",
          "CREATE INDEX by_date ON items (stamp, last, value)",
          "CREATE VIEW latest AS SELECT max(stamp) AS stamp FROM items", "VACUUM", "ANALYZE")
# The question for a day that ARCHIVE.md has beside this index.
DAY = ("EXPLAIN QUERY PLAN SELECT address, trend_log, name, avg(value), min(value), max(value), count(*) FROM records "
       "WHERE stamp >= '2024-01-01' AND stamp < '2024-01-02' GROUP BY address, trend_log, name")
COUNTS = ("SELECT count(*) FROM people", "SELECT count(*) FROM items INDEXED BY by_stamp WHERE stamp > ''")


def objects_beside(judge, _runs):
    """What ANALYZE makes, and a table, an index and a view of one's own, stay, and a run goes on beside them."""
    device, log = one(count=5)
    file = f"{judge.room}/a.db"
    judge.ran(["keep", file, device.address, "1"])
    for statement in BESIDE:
        base = sqlite3.connect(file, isolation_level=None)
        base.execute(statement)
        base.close()
        log.log(1)
        judge.same(f"a run behind {statement}", judge.ran(["keep", file]), (0, said(device, 1, 0, f"caught up, next {log.total + 1}"), ""))
        status, _out, errors = judge.ran(["kept", file])
        judge.same(f"kept behind {statement}", (status, errors), (0, ""))
    base = sqlite3.connect(file, isolation_level=None)
    counts = [base.execute(count).fetchone()[0] for count in COUNTS]
    judge.same("the table of others, and the rows by an index of others", counts, [1, log.total])
    plan = [step[3] for step in base.execute(DAY)]
    judge.is_right("a day is found by an index of others", any("COVERING INDEX by_date (stamp>? AND stamp<?)" in step for step in plan), plan)
    judge.same("the file is whole", base.execute("PRAGMA integrity_check").fetchall(), [("ok",)])
    base.close()
    judge.judge("objects beside", file, [device], True)
