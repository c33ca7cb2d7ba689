#!/usr/bin/env bash
# Times the reading of heads and bodies through one session, and prints ratios of times:
#
# - 2,000 small requests to 1,000 of them, and 2,000 with heads of 16,000 bytes to 1,000: 2.0 where a request costs the
#   same however many came before. A head is parsed again at each piece of 4,096 bytes that comes of it.
# - heads of 16,000 bytes to heads of 4,000 bytes, and a body of 4 MiB to one of 1 MiB: near 4 where the cost is that
#   of the bytes.
# - a body of 4 MiB in chunks of 1 KiB to the same body by its length.
#
# What the requests ask for is not built, so no row is written, and each is answered 501. Give a program that is built as the
# argument, else ./mtable builds and runs its own. It takes less than a minute.
set -eu
top=$(cd "$(dirname "$0")/.." && pwd)
program=${1:-$top/mtable}
"$program" session </dev/null
python3 - "$program" <<'PY'
import subprocess, sys, time

LIMIT = 4 << 20

def seconds(data, replies):
    took = []
    for _ in range(9):
        start = time.perf_counter()
        out = subprocess.run([sys.argv[1], "session"], input=data, capture_output=True, check=True).stdout
        took.append(time.perf_counter() - start)
        assert out.count(b"501 Not Implemented") == replies
    return min(took)

def heads(size, count):
    line = b"GET /Orders HTTP/1.1\r\n"
    field = b"A: " + b"x" * 245 + b"\r\n"
    fields, rest = divmod(size - len(line) - 2, len(field))
    last = b"B: " + b"y" * max(rest - 5, 1) + b"\r\n"
    return (line + field * fields + last + b"\r\n") * count

def by_length(size, count):
    return (b"GET /Orders HTTP/1.1\r\nContent-Length: %d\r\n\r\n" % size + b"x" * size) * count

def in_chunks(size, chunk, count):
    piece = b"%x\r\n" % chunk + b"x" * chunk + b"\r\n"
    head = b"GET /Orders HTTP/1.1\r\nTransfer-Encoding: chunked\r\n\r\n"
    return (head + piece * (size // chunk) + b"0\r\n\r\n") * count

def ratio(name, above, below):
    a, b = seconds(*above), seconds(*below)
    print(f"{name:58} {a:7.3f} s {b:7.3f} s {a / b:6.2f}", flush=True)

print(f"{'':58}   above     below   ratio")
ratio("2,000 to 1,000 heads of 300 bytes", (heads(300, 2000), 2000), (heads(300, 1000), 1000))
ratio("2,000 to 1,000 heads of 16,000 bytes", (heads(16000, 2000), 2000), (heads(16000, 1000), 1000))
ratio("heads of 16,000 to heads of 4,000 bytes", (heads(16000, 1000), 1000), (heads(4000, 1000), 1000))
ratio("bodies of 4 MiB to bodies of 1 MiB, by length", (by_length(LIMIT, 8), 8), (by_length(LIMIT // 4, 8), 8))
ratio("bodies of 4 MiB in chunks of 1 KiB to 4 MiB by length", (in_chunks(LIMIT, 1024, 8), 8), (by_length(LIMIT, 8), 8))
PY
