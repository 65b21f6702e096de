"""The transactions of submits, by Python's sqlite3: transactions.py FILE COUNT FIRST writes the rows of so many submits, the
first of that number, into a store of wrkmgr, each submit in a transaction of its own, with a write-ahead log and a sync at
each commit as wrkmgr has them. It prints how many seconds they took."""
import sqlite3
import sys
import time

path, count, first = sys.argv[1], int(sys.argv[2]), int(sys.argv[3])
put = "INSERT INTO wmrow (tab, k, body) VALUES (?1, ?2, ?3) ON CONFLICT (tab, k) DO UPDATE SET body = excluded.body"
store = sqlite3.connect(path, isolation_level=None)
store.execute("PRAGMA journal_mode = WAL")
store.execute("PRAGMA synchronous = FULL")
begun = time.perf_counter()
for n in range(first, first + count):
    body = (
        f"JOB SERIAL({n}) NUMBER({n}) USER(QUSER) NAME(A) TYPE(BCH) JOBQ(QGPL/QBATCH) JOBPTY(5) PLACE({n}) RTGDTA('QCMDB') "
        f"RQSDTA('CALL PGM(QGPL/ECHO) PARM(''{n}'')') HOLD(*YES) DUE({int(time.time())}) PHASE(WAITING)"
    )
    store.execute("BEGIN IMMEDIATE")
    store.execute(put, (11, f"{n:020d}", body))
    for counter in ("NUMBER", "PLACE", "SERIAL"):
        store.execute(put, (12, counter, str(n + 1)))
    store.execute("COMMIT")
print(f"{time.perf_counter() - begun:.6f}")
store.close()
