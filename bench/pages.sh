#!/usr/bin/env bash
# Times reading a whole table by pages, behind 2,000 and 4,000 inserts into one partition of one session, with row keys
# that rise, and prints the ratio to the first time: near 2 where a page costs the rows that it shows, and neither those
# in front of it nor the length of the history count. Each page is asked for behind the reply to the one before it, at
# the place that this names. The clock starts when the replies to all inserts are read. Each time is the least of nine
# sessions, of ten readings each.
#
# Give a program that is built as the argument, else ./mtable builds and runs its own. It takes less than a minute.
set -eu
top=$(cd "$(dirname "$0")/.." && pwd)
program=${1:-$top/mtable}
"$program" session </dev/null
python3 - "$program" <<'PY'
import os, re, subprocess, sys, threading, time

READINGS = 10

def insert(i):
    body = '{"PartitionKey":"p","RowKey":"r%06d","A":"some text"}' % i
    return "POST /Orders HTTP/1.1\r\nHost: x\r\nContent-Length: %d\r\n\r\n%s" % (len(body), body)

def send_inserts(session, rows):
    """Sends the inserts and reads a reply to each."""
    data = "".join(insert(i) for i in range(rows)).encode()
    writer = threading.Thread(target=lambda: (session.stdin.write(data), session.stdin.flush()))
    writer.start()
    line, end, replies = b"HTTP/1.1 201 Created", b'"}', b""
    while replies.count(line) < rows or not replies.endswith(end):
        replies += os.read(session.stdout.fileno(), 1 << 20)
    writer.join()

def read_page(session, options):
    """Asks for a page and reads its reply: the head, and the body of the length that it says."""
    session.stdin.write(("GET /Orders()%s HTTP/1.1\r\nHost: x\r\n\r\n" % options).encode())
    session.stdin.flush()
    got = b""
    while b"\r\n\r\n" not in got:
        got += os.read(session.stdout.fileno(), 1 << 20)
    head, _, body = got.partition(b"\r\n\r\n")
    assert head.startswith(b"HTTP/1.1 200 OK")
    length = int(re.search(rb"Content-Length: (\d+)", head)[1])
    while len(body) < length:
        body += os.read(session.stdout.fileno(), 1 << 20)
    place = [re.search(rb"x-ms-continuation-" + name + rb": (\S+)", head) for name in (b"NextPartitionKey", b"NextRowKey")]
    return body.count(b'"RowKey"'), [p[1].decode() for p in place if p]

def read_table(session):
    """Reads all pages, and counts their rows."""
    rows, options = 0, ""
    while True:
        found, place = read_page(session, options)
        rows += found
        if not place:
            return rows
        options = "?NextPartitionKey=%s" % place[0] + "".join("&NextRowKey=%s" % rk for rk in place[1:])

def seconds(rows):
    session = subprocess.Popen([sys.argv[1], "session"], stdin=subprocess.PIPE, stdout=subprocess.PIPE)
    send_inserts(session, rows)
    start = time.perf_counter()
    for _ in range(READINGS):
        assert read_table(session) == rows
    took = time.perf_counter() - start
    session.stdin.close()
    assert session.wait() == 0
    return took

few = min(seconds(2000) for _ in range(9))
many = min(seconds(4000) for _ in range(9))
print("ten readings of a whole table by pages")
print(f" 2,000 rows stored: {few:6.4f} s")
print(f" 4,000 rows stored: {many:6.4f} s, {many / few:.2f} times as long")
PY
