#!/usr/bin/env bash
# Times the replies of one session, and prints for each kind of request how many times the session took as long as
# `cat` takes to copy the same reply bytes from a file to a pipe:
#
# - 20,000 requests that are refused by their target alone, whose replies have about 230 bytes. A session writes each
#   reply at once, and `cat` many with one call, so this ratio is that of a request's whole cost.
# - 1,000 inserts of an entity with 60,000 bytes of text, with row keys that rise. The reply has the entity, which is
#   read as JSON, stored, and written once: near a constant for each byte.
#
# The input comes from a file, too, and what is written is counted and thrown away. Give a program that is built as the
# argument, else ./mtable builds and runs its own. It takes less than a minute.
set -eu
top=$(cd "$(dirname "$0")/.." && pwd)
program=${1:-$top/mtable}
"$program" session </dev/null
python3 - "$program" <<'PY'
import subprocess, sys, tempfile, time

RUNS = 5

def refused(count):
    return b"PUT /Orders HTTP/1.1\r\nHost: x\r\n\r\n" * count

def insert(i, size):
    body = b'{"PartitionKey":"p","RowKey":"r%05d","A":"%s"}' % (i, b"x" * size)
    return b"POST /Orders HTTP/1.1\r\nHost: x\r\nContent-Length: %d\r\n\r\n%s" % (len(body), body)

def seconds(words, data):
    took, out = [], b""
    with tempfile.TemporaryFile() as held:
        held.write(data)
        for _ in range(RUNS):
            held.seek(0)
            start = time.perf_counter()
            out = subprocess.run(words, stdin=held, capture_output=True, check=True).stdout
            took.append(time.perf_counter() - start)
    return min(took), out

def ratio(name, status, requests, count):
    session, replies = seconds([sys.argv[1], "session"], requests)
    assert replies.count(b"HTTP/1.1 %d " % status) == count
    copied, same = seconds(["cat"], replies)
    assert same == replies
    print(f"{name:34} {len(replies):10} {session:8.3f} s {copied:8.3f} s {session / copied:7.1f}", flush=True)

print(f"{'':34} {'bytes':>10} {'session':>10} {'cat':>10} {'ratio':>7}")
ratio("20,000 refusals by the target", 405, refused(20000), 20000)
ratio("1,000 inserts of 60,000 bytes", 201, b"".join(insert(i, 60000) for i in range(1000)), 1000)
PY
