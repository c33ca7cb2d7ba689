#!/usr/bin/env bash
# Times 1,000 puts of rows that are there, behind 2,000, 20,000 and 100,000 inserts into one partition of one session,
# with row keys that rise, and prints the ratios to the first time: near 1 where a put costs the depth of the store, and
# not its size, and the length of the history does not count. The clock starts when the replies to all inserts are read. Each time is
# the least of nine sessions.
#
# Give a program that is built as the argument, else ./mtable builds and runs its own. It takes about a minute.
set -eu
top=$(cd "$(dirname "$0")/.." && pwd)
program=${1:-$top/mtable}
"$program" session </dev/null
python3 - "$program" <<'PY'
import os, random, subprocess, sys, threading, time

PUTS = 1000

def insert(i):
    body = '{"PartitionKey":"p","RowKey":"r%06d","A":"some text"}' % i
    return "POST /Orders HTTP/1.1\r\nHost: x\r\nContent-Length: %d\r\n\r\n%s" % (len(body), body)

def put(i):
    body = '{"A":"other text"}'
    return "PUT /Orders(PartitionKey='p',RowKey='r%06d') HTTP/1.1\r\nHost: x\r\nIf-Match: *\r\nContent-Length: %d\r\n\r\n%s" % (i, len(body), body)

def exchange(session, requests, status):
    """Sends the requests and reads a reply of that status to each."""
    data = "".join(requests).encode()
    writer = threading.Thread(target=lambda: (session.stdin.write(data), session.stdin.flush()))
    writer.start()
    line, tail, found = b"HTTP/1.1 " + status, b"", 0
    while found < len(requests):
        tail += os.read(session.stdout.fileno(), 65536)
        found += tail.count(line)
        tail = tail[-(len(line) - 1):]
    writer.join()

def seconds(rows):
    keys = random.Random(0).choices(range(rows), k=PUTS)
    session = subprocess.Popen([sys.argv[1], "session"], stdin=subprocess.PIPE, stdout=subprocess.PIPE)
    exchange(session, [insert(i) for i in range(rows)], b"201 Created")
    start = time.perf_counter()
    exchange(session, [put(i) for i in keys], b"204 No Content")
    took = time.perf_counter() - start
    session.stdin.close()
    assert session.wait() == 0
    return took

few = min(seconds(2000) for _ in range(9))
print("1,000 puts of rows that are there")
print(f"  2,000 rows stored: {few:6.4f} s")
for rows in (20000, 100000):
    took = min(seconds(rows) for _ in range(9))
    print(f"{rows:7,} rows stored: {took:6.4f} s, {took / few:.2f} times as long", flush=True)
PY
