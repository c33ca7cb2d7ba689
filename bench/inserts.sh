#!/usr/bin/env bash
# Times 2,000, 10,000 and 40,000 inserts into one partition through one plain session, with row keys that rise, that fall,
# and in random order, and prints for each time how often that of 2,000 goes into it. Where an insert costs the same
# however much is stored, that is 1, 5 and 20. The plain keeper has its rows in one list, and an insert moves the
# rows behind it: so falling keys cost the most, and rising keys the least.
#
# Give a program that is built as the argument, else ./mtable builds and runs its own. It takes some minutes.
set -eu
top=$(cd "$(dirname "$0")/.." && pwd)
program=${1:-$top/mtable}
"$program" session </dev/null
python3 - "$program" <<'PY'
import random, subprocess, sys, time

COUNTS = (2000, 10000, 40000)

def request(i):
    body = '{"PartitionKey":"p","RowKey":"r%05d","A":"some text","B":"%d"}' % (i, i)
    return "POST /Orders HTTP/1.1\r\nHost: x\r\nContent-Length: %d\r\n\r\n%s" % (len(body), body)

def seconds(keys):
    data = "".join(map(request, keys)).encode()
    start = time.perf_counter()
    out = subprocess.run([sys.argv[1], "session", "--keeper", "plain"], input=data, capture_output=True, check=True).stdout
    took = time.perf_counter() - start
    assert out.count(b"201 Created") == len(keys)
    return took

def in_order(order, count):
    keys = list(range(count))
    if order == "falling":
        keys.reverse()
    if order == "random":
        random.Random(0).shuffle(keys)
    return keys

print("keys     inserts  seconds  a second  times that of 2,000")
for order in ("rising", "falling", "random"):
    least = None
    for count in COUNTS:
        took = min(seconds(in_order(order, count)) for _ in range(3 if count == COUNTS[0] else 1))
        least = least or took
        print(f"{order:8} {count:7} {took:8.2f} {count / took:9.0f} {took / least:8.1f}", flush=True)
PY
