#!/usr/bin/env bash
# Times 1,000 GETs of rows that are there, behind 2,000 and 20,000 inserts into one partition of one session, with row
# keys that rise, and prints the ratio to the first time: near 1 where a read costs the depth of the store, and not its
# size, and the length of the history does not count. The clock starts when the replies to all inserts are read. Each
# time is the least of nine sessions.
#
# Give a program that is built as the argument, else ./mtable builds and runs its own. It takes less than a minute.
set -eu
top=$(cd "$(dirname "$0")/.." && pwd)
program=${1:-$top/mtable}
"$program" session </dev/null
python3 - "$program" <<'PY'
import os, random, subprocess, sys, threading, time

GETS = 1000

def insert(i):
    body = '{"PartitionKey":"p","RowKey":"r%06d","A":"some text"}' % i
    return "POST /Orders HTTP/1.1\r\nHost: x\r\nContent-Length: %d\r\n\r\n%s" % (len(body), body)

def get(i):
    return "GET /Orders(PartitionKey='p',RowKey='r%06d') HTTP/1.1\r\nHost: x\r\n\r\n" % i

def exchange(session, requests, status):
    """Sends the requests and reads a reply of that status to each."""
    data = "".join(requests).encode()
    writer = threading.Thread(target=lambda: (session.stdin.write(data), session.stdin.flush()))
    writer.start()
    line, tail, found = b"HTTP/1.1 " + status, b"", 0
    while found < len(requests):
        tail += os.read(session.stdout.fileno(), 65536)
        found += tail.count(line)
        tail = tail[-(len(line) - 1):]
    writer.join()

def seconds(rows):
    keys = random.Random(0).choices(range(rows), k=GETS)
    session = subprocess.Popen([sys.argv[1], "session"], stdin=subprocess.PIPE, stdout=subprocess.PIPE)
    exchange(session, [insert(i) for i in range(rows)], b"201 Created")
    start = time.perf_counter()
    exchange(session, [get(i) for i in keys], b"200 OK")
    took = time.perf_counter() - start
    session.stdin.close()
    assert session.wait() == 0
    return took

few = min(seconds(2000) for _ in range(9))
many = min(seconds(20000) for _ in range(9))
print("1,000 GETs of rows that are there")
print(f"  2,000 rows stored: {few:6.4f} s")
print(f" 20,000 rows stored: {many:6.4f} s, {many / few:.2f} times as long")
PY
