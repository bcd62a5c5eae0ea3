#!/usr/bin/env bash
# Compares examples/ with what a program says: tests/examples.sh PROGRAM, with the built viommu.
#
# Each NAME.viommu says in a comment how NAME.report was made ('Run it by: ./viommu WORDS examples/NAME.viommu'), and may
# say which other report `check` refuses, and how ('Refused by ./viommu check SCRIPT REPORT: VERDICT'). Each report is
# also judged by `check`, and so is a run of each script on 1, 4 and 16 workers, since these differ from call to call.
# It may also name a file that stands below the report with other words ('Below the report stands FILE with ./viommu WORDS SCRIPT').
# Each NAME.trace says what is found of it ('Said by ./viommu trace examples/NAME.trace: FINDING').
# It stands outside the gate, and ends with 'N passed, M failed'.
set -euo pipefail
if [ $# -ne 1 ]; then
  echo "usage: tests/examples.sh PROGRAM" >&2
  exit 2
fi
program=$(realpath -- "$1")
cd "$(dirname "$0")/.."
room=$(mktemp -d)
trap 'rm -rf "$room"' EXIT
passed=0 failed=0

# One question: the file that was got has this text.
same() {
  if diff -u "$2" "$3" > "$room/diff"; then
    passed=$((passed + 1))
  else
    failed=$((failed + 1))
    echo "$1"
    head -n 20 "$room/diff"
  fi
}

verdict() {
  { cat "$1"; echo report; cat "$2"; } | "$program" check > "$room/verdict" || true
}

echo legal > "$room/legal"
judged=
for script in examples/*.viommu; do
  report=${script%.viommu}.report
  words=$(sed -n "s|^# Run it by: \./viommu \(.*\) $script\$|\1|p" "$script")
  if [ -z "$words" ]; then
    failed=$((failed + 1))
    echo "$script doesn't say how it is run"
    continue
  fi
  # shellcheck disable=SC2086
  "$program" $words < "$script" > "$room/report" || true
  same "$script: $words" "$report" "$room/report"
  verdict "$script" "$report"
  same "$report: check" "$room/legal" "$room/verdict"
  for workers in 1 4 16; do
    "$program" run "$workers" < "$script" > "$room/report" || true
    verdict "$script" "$room/report"
    same "$script: check of run $workers" "$room/legal" "$room/verdict"
  done
  judged="$judged $report"
  while read -r below words; do
    # shellcheck disable=SC2086
    "$program" $words < "$script" > "$room/report" || true
    cat "$report" "$below" > "$room/wanted"
    same "$script: $words" "$room/wanted" "$room/report"
  done < <(sed -n "s|^# Below the report stands \([^ ]*\) with \./viommu \(.*\) $script\$|\1 \2|p" "$script")
  while read -r of report wanted; do
    verdict "$of" "${report%:}"
    echo "$wanted" > "$room/wanted"
    same "$report check" "$room/wanted" "$room/verdict"
    judged="$judged ${report%:}"
  done < <(sed -n 's|^# Refused by \./viommu check \(.*\)$|\1|p' "$script")
done

# No report stands there without a script that names it.
for report in examples/*.report; do
  case " $judged " in
    *" $report "*) passed=$((passed + 1)) ;;
    *)
      failed=$((failed + 1))
      echo "$report: no script names it"
      ;;
  esac
done

for trace in examples/*.trace; do
  sed -n "s|^# Said by \./viommu trace $trace: ||p" "$trace" > "$room/wanted"
  "$program" trace < "$trace" > "$room/finding" || true
  same "$trace: trace" "$room/wanted" "$room/finding"
done

examples/schedules.sh "$program" > "$room/schedules"
echo '8 different histories over 200 seeds' > "$room/wanted"
tail -n 1 "$room/schedules" > "$room/last"
same "examples/schedules.sh" "$room/wanted" "$room/last"

echo "$passed passed, $failed failed"
[ "$failed" -eq 0 ]
