#!/usr/bin/env python3
"""Makes the table `sales` of this folder, as a Spark job with Delta Lake writes one: make_sales.py [FOLDER]

Twelve commits: the table is made, appended to day by day, fed by a stream (with its txn), cleaned by a DELETE, given one more
column, and compacted. Partition columns are `day` and `country`. The same script gives the same bytes.
"""
import json, os, random, sys, uuid

FOLDER = sys.argv[1] if len(sys.argv) > 1 else os.path.join(os.path.dirname(os.path.abspath(__file__)), "sales")
COUNTRIES = ("at", "de", "fr", "it", "pl", "se")
START = 1764547200000  # 2025-12-01T00:00:00Z
DAY = 86400000
rng = random.Random(12)

def text(value):
    return json.dumps(value, separators=(",", ":"))

def field(name, kind):
    return {"name": name, "type": kind, "nullable": True, "metadata": {}}

FIELDS = [field("id", "long"), field("amount", "decimal(10,2)"), field("day", "date"), field("country", "string")]

def meta(fields):
    return {"metaData": {"id": "5a0f3c7e-27a4-4d0e-8d3b-0d8a6f1f7c52", "name": "sales", "format": {"provider": "parquet", "options": {}},
        "schemaString": text({"type": "struct", "fields": fields}), "partitionColumns": ["day", "country"],
        "configuration": {"delta.enableChangeDataFeed": "false"}, "createdTime": START}}

def name(prefix):
    return "part-%05d-%s.c000.snappy.parquet" % (prefix, uuid.UUID(int=rng.getrandbits(128), version=4))

def file(day, country, number, rows, moment, change=True):
    date = "2025-12-%02d" % day
    first = day * 100000 + rng.randrange(1000)
    stats = {"numRecords": rows, "minValues": {"id": first}, "maxValues": {"id": first + rows - 1}, "nullCount": {"id": 0, "amount": 0}}
    return {"path": "day=%s/country=%s/%s" % (date, country, name(number)), "partitionValues": {"day": date, "country": country},
        "size": 700 + 9 * rows, "modificationTime": moment, "dataChange": change, "stats": text(stats)}

def remove(add, moment, change=True):
    return {"remove": {"path": add["path"], "deletionTimestamp": moment, "dataChange": change, "extendedFileMetadata": True,
        "partitionValues": add["partitionValues"], "size": add["size"]}}

def info(version, operation, parameters, moment):
    return {"commitInfo": {"timestamp": moment, "operation": operation, "operationParameters": parameters,
        "readVersion": version - 1, "isolationLevel": "Serializable", "isBlindAppend": operation in ("WRITE", "STREAMING UPDATE"),
        "engineInfo": "Apache-Spark/3.5.3 Delta-Lake/3.2.0", "txnId": str(uuid.UUID(int=rng.getrandbits(128), version=4))}}

live, commits = [], []

def commit(operation, parameters, actions):
    version = len(commits)
    commits.append([info(version, operation, parameters, START + version * DAY + 3600000)] + actions)

def append(operation, parameters, days, others=()):
    moment = START + len(commits) * DAY + 3590000
    adds = [file(day, country, number, 40 + rng.randrange(200), moment)
        for day in days for number, country in enumerate(COUNTRIES)]
    live.extend(adds)
    commit(operation, parameters, list(others) + [{"add": add} for add in adds])

def rewrite(operation, parameters, old, new, change):
    moment = START + len(commits) * DAY + 3590000
    for add in old:
        live.remove(add)
    live.extend(new)
    commit(operation, parameters, [remove(add, moment, change) for add in old] + [{"add": add} for add in new])

WRITE = {"mode": "Append", "partitionBy": "[]"}
STREAM = {"outputMode": "Append", "queryId": "8c3a51d2-6d40-4d0b-9b0e-6a3e5d1f0c11", "epochId": "1"}

commit("CREATE TABLE", {"partitionBy": "[\"day\",\"country\"]", "isManaged": "false"},
    [{"protocol": {"minReaderVersion": 1, "minWriterVersion": 2}}, meta(FIELDS)])
for first in (1, 6, 11, 16):
    append("WRITE", WRITE, range(first, first + 5))
append("STREAMING UPDATE", STREAM, range(21, 25), [{"txn": {"appId": STREAM["queryId"], "version": 1, "lastUpdated": START + 5 * DAY}}])
stale = [add for add in live if add["partitionValues"]["country"] == "pl"][:12]
rewrite("DELETE", {"predicate": "[\"(amount < 0.00)\"]"}, stale,
    [dict(file(int(add["partitionValues"]["day"][-2:]), "pl", 0, 30, START + 6 * DAY)) for add in stale], True)
append("WRITE", WRITE, range(25, 28), [meta(FIELDS + [field("channel", "string")])])
append("WRITE", WRITE, range(28, 32))
append("WRITE", WRITE, range(28, 32))
small = [add for add in live if add["partitionValues"]["day"] in ("2025-12-01", "2025-12-02", "2025-12-03")]
rewrite("OPTIMIZE", {"predicate": "[]", "zOrderBy": "[]"}, small,
    [file(day, country, 0, 600, START + 10 * DAY, False) for day in (1, 2, 3) for country in COUNTRIES[:2]], False)
append("STREAMING UPDATE", dict(STREAM, epochId="2"), range(24, 26), [{"txn": {"appId": STREAM["queryId"], "version": 2, "lastUpdated": START + 11 * DAY}}])

log = os.path.join(FOLDER, "_delta_log")
os.makedirs(log, exist_ok=True)
for version, actions in enumerate(commits):
    with open(os.path.join(log, "%020d.json" % version), "w") as out:
        out.writelines(text(action) + "\n" for action in actions)
print("%d commits, %d files" % (len(commits), len(live)))
