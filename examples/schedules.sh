#!/usr/bin/env bash
# How many different histories one script has, each with how often it came: runs in turns under many seeds.
#
#     examples/schedules.sh PROGRAM [SCRIPT [SEEDS [TURNS]]]
#
# PROGRAM is the built viommu, or the script `viommu` itself. Without more words: removal.viommu, 200 seeds, and 200 drawn turns.
# The script's own `turns` lines are left out, since they would decide the order. Of each entry its name and answer are
# shown: a status by its number, a fault by its reason, what was read by its bytes.
set -euo pipefail
if [ $# -lt 1 ] || [ $# -gt 4 ]; then
  sed -n '2,9s/^# \{0,1\}//p' "$0" >&2
  exit 2
fi
program=$1
script=${2:-$(dirname "$0")/removal.viommu}
seeds=${3:-200}
turns=${4:-200}
room=$(mktemp -d)
trap 'rm -rf "$room"' EXIT
grep -v '^ *turns ' "$script" > "$room/script"
for ((seed = 0; seed < seeds; seed++)); do
  if ! "$program" sim "$seed" "$turns" < "$room/script" > "$room/report"; then
    cat "$room/report" >&2
    exit 1
  fi
  awk '
    /^faults / { exit }
    NR == 1 { next }
    $3 == "read" || $3 == "status" || $3 == "fault" { $3 = $3 " " $4 }
    { printf "%s%s %s", between, $2, $3; between = ", " }
    END { print "" }' "$room/report" >> "$room/histories"
done
sort "$room/histories" | uniq -c | sort -k1,1nr > "$room/counted"
cat "$room/counted"
echo "$(wc -l < "$room/counted") different histories over $seeds seeds"
