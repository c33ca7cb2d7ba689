#!/usr/bin/env bash
# Times change sets through one session, and prints two ratios of times:
#
# - one change set of 100 inserts to 100 single inserts of the same rows, 200 of each behind one another, each into a
#   partition of its own. A change set has one head to read, two store calls in place of 200 and one reply to write; its
#   rows, their bodies and their replies are the same.
# - 200 change sets of 100 inserts to 100 of them: 2.0 where a change set costs the same however many came before.
#
# Partitions and row keys rise. Each time is the least of nine sessions. Give a program that is built as the argument,
# else ./mtable builds and runs its own. It takes less than a minute.
set -eu
top=$(cd "$(dirname "$0")/.." && pwd)
program=${1:-$top/mtable}
"$program" session </dev/null
python3 - "$program" <<'PY'
import subprocess, sys, time

ROWS = 100

def body(partition, row):
    return b'{"PartitionKey":"p%03d","RowKey":"r%03d","A":"some text"}' % (partition, row)

def single(partition, row):
    text = body(partition, row)
    return b"POST /Orders HTTP/1.1\r\nHost: x\r\nContent-Length: %d\r\n\r\n%s" % (len(text), text)

def change_set(partition):
    parts = b"".join(
        b"--c\r\nContent-Type: application/http\r\nContent-Transfer-Encoding: binary\r\n\r\nPOST /Orders HTTP/1.1\r\n\r\n%s\r\n" % body(partition, row)
        for row in range(ROWS))
    text = b"--b\r\nContent-Type: multipart/mixed; boundary=c\r\n\r\n%s--c--\r\n--b--\r\n" % parts
    return b"POST /$batch HTTP/1.1\r\nHost: x\r\nContent-Type: multipart/mixed; boundary=b\r\nContent-Length: %d\r\n\r\n%s" % (len(text), text)

def seconds(data, rows):
    took = []
    for _ in range(9):
        start = time.perf_counter()
        out = subprocess.run([sys.argv[1], "session"], input=data, capture_output=True, check=True).stdout
        took.append(time.perf_counter() - start)
        assert out.count(b"201 Created") == rows
    return min(took)

def sets(count):
    return seconds(b"".join(map(change_set, range(count))), count * ROWS)

def singles(count):
    return seconds(b"".join(single(p, r) for p in range(count) for r in range(ROWS)), count * ROWS)

def ratio(name, above, below):
    print(f"{name:48} {above:7.3f} s {below:7.3f} s {above / below:6.2f}", flush=True)

many, few = sets(200), sets(100)
print(f"{'':48}   above     below   ratio")
ratio("a change set of 100 inserts to 100 single ones", many, singles(200))
ratio("200 change sets to 100", many, few)
PY
