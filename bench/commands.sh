#!/usr/bin/env bash
# Times the commands of a program, or of two side by side: bench/commands.sh PROGRAM [OTHER].
#
# The inputs are `make 400` and five that this script makes: many mappings of one domain with as many reads, transfers
# of disjoint pages, writes in 17 parts, and two traces for `trace`, which is all that is timed on these. The pages that were
# written are asked for where they are many: DIRTY='dirty 1 4,dirty 1000 4' on `make 400` and on the writes in parts, and
# DIRTY= leaves that out (for an OTHER that knows no `dirty`). With two programs they take turns in one run, and the ratio is
# that of PROGRAM to OTHER. No part of the gate. ROUNDS=9 says how often each is run, COMMANDS='one,sim 0 0,run 1,run 2,run 4' which are, INPUTS (words) on what.
# COUNT=1 counts instructions with valgrind in place of time, once each: these don't depend on what else the machine does.
set -euo pipefail
if [ $# -lt 1 ] || [ $# -gt 2 ]; then
  echo "usage: bench/commands.sh PROGRAM [OTHER]" >&2
  exit 2
fi
for tool in awk python3 ${COUNT:+valgrind}; do
  if ! command -v "$tool" > /dev/null; then
    echo "skipped: $tool is missing"
    exit 0
  fi
done
here=$(cd "$(dirname "$0")" && pwd)
room=$(mktemp -d)
trap 'rm -rf "$room"' EXIT
"$1" make 400 > "$room/make400"
# 4,945 mappings of a page each in one domain, in scattered order and no two of them neighbours; then 4,946 reads of one
# byte in scattered order. The memory has few pages, so that finding mappings weighs more than fresh memory.
awk 'BEGIN {
  print "memory 16"
  for (e = 1; e <= 4; e++) print "endpoint " e
  for (e = 1; e <= 4; e++) print "d0 attach 1 " e
  n = 4945
  for (i = 0; i < n; i++) {
    a = (1000000 + 2 * ((i * 1871) % n)) * 4096
    printf "d0 map 1 %.0f %.0f %d rw\n", a, a + 4095, (i % 16) * 4096
  }
  for (i = 0; i < n + 1; i++) {
    a = (1000000 + 2 * ((i * 2963 + 17) % n)) * 4096
    printf "b%d read %.0f 1%s\n", i % 4 + 1, a, (i < 4 ? " after d0." n + 4 : "")
  }
}' > "$room/maps"
# 4 back ends with 64 pages each, a domain and a driver for each of them: 64 writes of a page, and 252 reads of 16 pages,
# each of them 16 parts of 4,096 bytes. That is all that a script may transfer: 16,777,216 bytes.
awk 'BEGIN {
  print "memory 256"
  print "cache 64"
  for (e = 1; e <= 4; e++) print "endpoint " e
  for (e = 1; e <= 4; e++) {
    print "d" e - 1 " attach " e " " e
    print "d" e - 1 " map " e " 0 " 64 * 4096 - 1 " " (e - 1) * 64 * 4096 " rw"
  }
  for (r = 0; r < 63; r++) for (e = 1; e <= 4; e++) {
    after = r == 0 ? " after d" e - 1 ".2" : ""
    if (r < 16) {
      bytes = sprintf("%08x", (r * 4 + e) * 40503)
      for (i = 0; i < 10; i++) bytes = bytes bytes
      print "b" e " write " (r * 4 + e) % 64 * 4096 " " bytes after
      after = ""
    }
    print "b" e " read " r % 4 * 65536 " 65536" after
  }
}' > "$room/pages"
# 6 writes of 61,442 bytes from the last byte of a page on, so of 17 parts each, which is what a script's text has place for
# beside 9,000 writes of two bytes across two pages: 18,102 written parts of 64 pages.
awk 'BEGIN {
  print "memory 64"
  print "cache 64"
  print "endpoint 1"
  print "d0 attach 1 1"
  print "d0 map 1 0 262143 0 rw"
  bytes = "5a"
  while (length(bytes) < 2 * 61442) bytes = bytes bytes
  for (i = 0; i < 6; i++) print "b1 write " 4095 + 4096 * i " " substr(bytes, 1, 2 * 61442) (i == 0 ? " after d0.2" : "")
  for (i = 0; i < 9000; i++) print "b1 write " 4095 + 4096 * (i * 37 % 63) " 5a5a"
}' > "$room/writes"
# Traces of 1,048,576 bytes, filled up by a line that says nothing: Updates of scattered pages with a use of each, and Updates
# with pairs of an Invalidate and its Ack below them.
trace() {
  awk -v of="$1" '
  function bytes(page) { return sprintf("00%x0%02x%02x00000000", page % 16, int(page / 16) % 256, int(page / 4096)) }
  function put(line) { print line; left -= length(line) + 1 }
  function update(page) { put("down 160000000100000020000000" bytes(page) "0010000000000000" "00000000007f0000" "0302000000000000") }
  function invalidate(page) { put("down 160000000900000020000000" bytes(page) "0010000000000000" "0000000000000000" "0003000000000000") }
  BEGIN {
    left = 1048576
    for (i = 0; left > (of == "uses" ? 300 : 524288); i++) {
      page = 1 + (i * 7919) % 65521
      update(page)
      if (of == "uses") put("use " page * 4096 " w")
    }
    for (i = 0; left > 300; i++) {
      invalidate(1 + (i * 7919) % 65521)
      put("up 1600000005000000080000000000000000000000")
    }
    while (left > 1) { printf "#"; left-- }
    print ""
  }'
}
trace uses > "$room/uses.trace"
trace acks > "$room/acks.trace"
python3 "$here/commands.py" "$room" "$@"
