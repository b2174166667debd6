#!/usr/bin/env python3
"""Makes the table `orders`, whose files are Parquet that any reader opens: make_orders.py [FOLDER]

FOLDER, `orders` beside this script where none is named, gets the log, three commits, and the files that it names: columns `id` and
`amount`, with the partition column `day` in the log alone; plain, not compressed, a page a column. FOLDER/next.json, a line of the log
that isn't in it yet, adds one file more, which is there too. The same script gives the same bytes. (Apache Parquet format,
parquet.thrift; Thrift compact protocol.)
"""
import json, os, random, struct, sys

FOLDER = sys.argv[1] if len(sys.argv) > 1 else os.path.join(os.path.dirname(os.path.abspath(__file__)), "orders")
INT64, REQUIRED, OPTIONAL, PLAIN, RLE, DECIMAL = 2, 0, 1, 0, 3, 5
START = 1795737600000  # 2026-11-27T00:00:00Z


# ---- Thrift's compact protocol: a value as its type and its bytes

def varint(number):
    out = bytearray()
    while number > 127:
        out.append(number & 127 | 128)
        number >>= 7
    return bytes(out) + bytes([number])

def i32(number):
    return 5, varint(2 * number)

def i64(number):
    return 6, varint(2 * number)

def text(string):
    return 8, varint(len(string)) + string.encode()

def listed(*items):
    return 9, bytes([16 * len(items) + items[0][0]]) + b"".join(it for _, it in items)

def record(**fields):
    """A struct; the field of number 3 is named f3."""
    out, last = b"", 0
    for name, (kind, value) in fields.items():
        out += bytes([16 * (int(name[1:]) - last) + kind]) + value
        last = int(name[1:])
    return 12, out + b"\0"


# ---- Parquet

def page(values, optional):
    """A data page with its header. Levels, in one run of packed bits, tell where a value is."""
    body = b"".join(struct.pack("<q", v) for v in values if v is not None)
    if optional:
        groups = (len(values) + 7) // 8
        bits = sum((v is not None) << place for place, v in enumerate(values))
        levels = varint(2 * groups + 1) + bits.to_bytes(groups, "little")
        body = struct.pack("<i", len(levels)) + levels + body
    about = record(f1=i32(len(values)), f2=i32(PLAIN), f3=i32(RLE), f4=i32(RLE))
    return record(f1=i32(0), f2=i32(len(body)), f3=i32(len(body)), f5=about)[1] + body

def chunk(name, rows, place, size):
    meta = record(f1=i32(INT64), f2=listed(i32(PLAIN), i32(RLE)), f3=listed(text(name)), f4=i32(0), f5=i64(rows), f6=i64(size), f7=i64(size), f9=i64(place))
    return record(f2=i64(place), f3=meta)

def parquet(rows):
    """A file of rows of an id and of an amount in cents, which may be None."""
    ids, amounts = page([it for it, _ in rows], False), page([it for _, it in rows], True)
    schema = listed(
        record(f4=text("schema"), f5=i32(2)),
        record(f1=i32(INT64), f3=i32(REQUIRED), f4=text("id")),
        record(f1=i32(INT64), f3=i32(OPTIONAL), f4=text("amount"), f6=i32(DECIMAL), f7=i32(2), f8=i32(10), f10=record(f5=record(f1=i32(2), f2=i32(10)))),
    )
    chunks = listed(chunk("id", len(rows), 4, len(ids)), chunk("amount", len(rows), 4 + len(ids), len(amounts)))
    group = record(f1=chunks, f2=i64(len(ids) + len(amounts)), f3=i64(len(rows)))
    footer = record(f1=i32(1), f2=schema, f3=i64(len(rows)), f4=listed(group), f6=text("make_orders version 1 (build 1)"))[1]
    return b"PAR1" + ids + amounts + footer + struct.pack("<i", len(footer)) + b"PAR1"


# ---- the table

def write(name, content):
    place = os.path.join(FOLDER, name)
    os.makedirs(os.path.dirname(place), exist_ok=True)
    with open(place, "wb") as out:
        out.write(content)

def compact(value):
    return json.dumps(value, separators=(",", ":"))

def add(day, number, count):
    """Writes a file of so many rows; its add action."""
    chance, path, first = random.Random(number), "day=2026-11-%d/part-%05d.parquet" % (day, number), 1000 * day
    rows = [(first + it, None if it % 50 == 49 else chance.randrange(100, 100_000)) for it in range(count)]
    content = parquet(rows)
    write(path, content)
    stats = {"numRecords": count, "minValues": {"id": first}, "maxValues": {"id": first + count - 1}, "nullCount": {"id": 0, "amount": count // 50}}
    return {"add": {"path": path, "partitionValues": {"day": "2026-11-%d" % day}, "size": len(content), "modificationTime": START + number,
        "dataChange": True, "stats": compact(stats)}}

def field(name, kind, nullable):
    return {"name": name, "type": kind, "nullable": nullable, "metadata": {}}

def main():
    fields = [field("id", "long", False), field("amount", "decimal(10,2)", True), field("day", "date", True)]
    meta = {"id": "0f6b6b0c-8a2e-4e6f-9d7e-5b0f2b1c7a11", "name": "orders", "format": {"provider": "parquet", "options": {}},
        "schemaString": compact({"type": "struct", "fields": fields}), "partitionColumns": ["day"], "configuration": {"delta.appendOnly": "false"},
        "createdTime": START}
    former = add(26, 1, 143)
    remove = {"path": former["add"]["path"], "deletionTimestamp": START + 86400000, "dataChange": True, "extendedFileMetadata": True,
        "partitionValues": former["add"]["partitionValues"], "size": former["add"]["size"]}
    commits = [
        [{"protocol": {"minReaderVersion": 1, "minWriterVersion": 2}}, {"metaData": meta}, add(25, 0, 120), former],
        [add(27, 2, 58)],
        [{"remove": remove}, add(26, 3, 142)],
    ]
    for version, actions in enumerate(commits):
        write("_delta_log/%020d.json" % version, "".join(compact(action) + "\n" for action in actions).encode())
    write("next.json", (compact(add(28, 4, 31)) + "\n").encode())


main()
