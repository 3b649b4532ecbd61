#!/usr/bin/env bash
# The auditor's day: has an anchor placed, and leads the two heads that it trusts on to those of now.
#
# usage: examples/auditor_day.sh [--start | --look] HEADS COMMAND..
#
# HEADS has the trusted heads, in two lines as `auditctl script` takes them: `trust ledger ID SIZE ROOT` and `trust notary SIZE ROOT`.
# COMMAND takes a script and writes its replies, as `ledgerctl chain run books` does, here or behind ssh. `auditctl` is found in PATH,
# or named by AUDITCTL. HEADS is replaced only where each line had a yes; what was said stays beside it, in HEADS.DATE.
#
# With --start HEADS has one line, of the ledger: its id is its root over one journal, so `trust ledger ID 1 ID`. The notary's first head
# is taken from the replies then, since there is none before it. Compare it with somebody else's.
#
# With --look no anchor is placed: nothing is written to the ledger. So it is asked where a copy was restored, before any line is sent.
#
# The receipt of the anchor tells the notary's time. One that is ahead of this machine's clock, or more than BEHIND seconds behind, is an
# alarm: all later times are no smaller, so one clock that was ahead once spoils them. BEHIND is 60 where it isn't given.
#
# Ends with 0 where all is as it should be, with 1 where the words are of no form or the command failed, and with 2 at an alarm: the
# ledger doesn't go on from what was trusted, or a time is wrong. Then keep HEADS and HEADS.DATE, and show them to the others. It ends
# with 3 where the ledger says that it was purged beyond the trusted head: a later head of another auditor is wanted, in place of HEADS.
set -euo pipefail

fail() {
  echo "auditor_day: $1" >&2
  exit 1
}

alarm() {
  echo "ALARM: $1"
  echo "kept: $heads and $said"
  exit 2
}

usage() {
  sed -n '2,/^set /s/^# \{0,1\}//p' "$0"
}

start= look=
case ${1-} in
  --start) start=1; shift ;;
  --look) look=1; shift ;;
  --help) usage; exit 0 ;;
esac
[ $# -ge 2 ] || fail "HEADS and a COMMAND are wanted; --help tells more"
heads=$1
shift
said=$heads.$(date -u +%Y%m%dT%H%M%S.%3N)
behind=${BEHIND:-60}
id=$(awk '$2 == "ledger" { print $3 }' "$heads")
size=$(awk '$2 == "ledger" { print $4 }' "$heads")
notary=$(awk '$2 == "notary" { print $3 }' "$heads")
[ -n "$size" ] && { [ -n "$start" ] || [ -n "$notary" ]; } || fail "$heads has no two heads"

# What is asked. The anchor comes first, so the heads are over it.
led=("extend ledger $size")
[ -n "$start" ] || led+=("extend notary $notary")
{ [ -n "$look" ] || echo "0 anchor"; printf '0 %s\n' "${led[@]}" head; } | "$@" >"$said" ||
  fail "the command ended with $?: $(tail -1 "$said")"
grep -q "^0\.[0-9]* head $id " "$said" || alarm "this isn't the ledger $id"
[ -n "$look" ] || grep -q '^0\.1 ok ' "$said" || alarm "no anchor: $(head -1 "$said")"

# No extension leads out of what was purged.
if point=$(sed -n 's/^0\.[0-9]* no 21 //p' "$said") && [ -n "$point" ]; then
  echo "the ledger says that it was purged up to $point, and the trusted head has $size journals: take a later head from another auditor"
  exit 3
fi

# Each head of now goes on from the trusted one.
script=$(cat "$heads"; sed -n 's/^[^ ]* extension/extend/p' "$said")
answers=$(printf '%s\n' "$script" | "${AUDITCTL:-auditctl}" script) || fail "auditctl ended with $?"
printf '%s\n' "$answers" | sed 's/^/auditor /' >>"$said"
[ "$(grep -c ' yes$' <<<"$answers")" = $((2 * ${#led[@]})) ] ||
  alarm "the ledger doesn't go on: $(grep -h ' no ' "$said" | head -3 | tr '\n' ';')"

# The heads of the reply to `head` are those that the extensions lead to.
shown() {
  awk -v tree="$1" '$2 == "extension" && $3 == tree { print $5, $6 }' "$said"
}
read -r now_size now_root now_notary now_notary_root < <(awk '$2 == "head" { print $4, $5, $8, $9 }' "$said")
[ "$(shown ledger)" = "$now_size $now_root" ] || alarm "head tells another head than the extension"
[ -n "$start" ] || [ "$(shown notary)" = "$now_notary $now_notary_root" ] ||
  alarm "head tells another head of the notary than the extension"

# The anchor's entry is the last in the notary's list, and its time is now.
look_at_anchor() {
  local place time now
  read -r place time < <(awk '$1 == "0.1" { print $8, $9 }' "$said")
  now=$(date +%s%3N)
  [ "$place" = $((now_notary - 1)) ] || alarm "the anchor has place $place in a list of $now_notary entries"
  [ "$time" -le $((now + 1000)) ] || alarm "the anchor's time is ahead: $time, and here it is $now"
  [ "$time" -ge $((now - 1000 * behind)) ] || alarm "the anchor's time is more than $behind s behind: $time, and here it is $now"
}
[ -n "$look" ] || look_at_anchor

printf '%s\n' "trust ledger $id $now_size $now_root" "trust notary $now_notary $now_notary_root" >"$heads.new"
sync "$heads.new"
mv "$heads.new" "$heads"
echo "trusted now, to be given to others:"
cat "$heads"
