#!/usr/bin/env bash
# Runs hgpart over devices that fail: bench/devices.sh HGPART
# For each case a line has its name, the exit status, the text on standard error, and whether that, and
# what stands in the files, is as docs/FORMAT.md says. The status is 1 where a case is not.
# Linux; some cases need `timeout`, `taskset` or, for root, `setpriv`, and are left out without it.
set -u
top=$(mktemp -d)
trap 'rm -rf "$top"' EXIT
chmod 755 "$top"
cp "$1" "$top/hgpart" || exit 2
export hgpart=$top/hgpart
cases=0
otherwise=0

# The inputs: two vertices in one net, 2,000 and 100,000 vertices, and what a run of one worker makes of the second.
inputs=$top/inputs
mkdir "$inputs"
printf '1 2\n1 2\n' > "$inputs/pair.hgr"
"$hgpart" generate 2000 > "$inputs/some.hgr"
"$hgpart" generate 100000 > "$inputs/many.hgr"
(cd "$inputs" && "$hgpart" partition some.hgr 2 0.03 workers=1 out=some.part > some.report)
export inputs

# Whether a file has exactly this text, has no byte, isn't there, or is shorter than another that begins with it.
holds() { [ "$(cat "$1"; echo x)" = "$(printf "$2"; echo x)" ]; }
is_empty() { [ -e "$1" ] && [ ! -s "$1" ]; }
is_absent() { [ ! -e "$1" ]; }
is_cut() { [ "$(stat -c %s "$1")" -lt "$(stat -c %s "$2")" ] && cmp -s -n "$(stat -c %s "$1")" "$1" "$2"; }
# Whether a file has a block below 2 for each of so many vertices.
is_partition() { [ "$(grep -c '^[01]$' "$1")" = "$2" ] && [ "$(wc -l < "$1")" = "$2" ]; }
# Whether a file has two different blocks below 4, for the two vertices.
is_pair() { [ "$(sort -u "$1" | grep -c '^[0-3]$')" = 2 ] && [ "$(wc -c < "$1")" = 4 ]; }
# Whether neither a text nor a partition was written.
is_nothing() { is_empty output && is_absent part; }
fits() { "$hgpart" evaluate "$inputs/$1" "$2" 2 0.03 2> /dev/null | grep -q '^fits yes$'; }

# try NAME STATUSES TEXT CHECK COMMAND: the command is run by bash in a folder of its own; STATUSES are parted
# by blanks, and CHECK is run there afterwards, where `output` and `errors` are what was written.
try() {
  local room status verdict="as said"
  room=$(mktemp -d -p "$top")
  chmod 777 "$room"
  cd "$room" || exit 2
  { bash -c "$5" > ../output 2> ../errors < /dev/null; } 2> /dev/null
  status=$?
  mv ../output ../errors .
  if [[ " $2 " != *" $status "* ]] || ! { [ "$3" = any ] || holds errors "$3"; } || ! eval "$4"; then
    verdict="OTHERWISE: wanted $2, $3, $4"
    otherwise=$((otherwise + 1))
  fi
  cases=$((cases + 1))
  printf '%s: status %s, "%s", %s\n' "$1" "$status" "$(head -c 300 errors | tr '\n' '/')" "$verdict"
  cd "$top" || exit 2
  rm -rf "$room"
}

unread='read fault\n'
unwritten='write fault\n'
no_memory='no memory\n'
export pair=$inputs/pair.hgr some=$inputs/some.hgr many=$inputs/many.hgr
silent='is_empty output'
file_limit='ulimit -f 1; $hgpart partition $some 2 0.03 out=part workers=1'

is_usage() { [ "$(grep -c '^usage: hgpart ' errors)" = 4 ] && [ "$(wc -l < errors)" = 4 ] && is_empty output; }
is_nothing_but_a_cut_part() { is_empty output && is_cut part "$inputs/some.part"; }
is_part_with_a_cut_report() { cmp -s part "$inputs/some.part" && is_cut report "$inputs/some.report"; }
is_pair_or_fault() {
  case $status in
    0) is_pair part ;;
    6) holds errors "$unread" && is_nothing ;;
    7) holds errors "$unwritten" && is_nothing ;;
  esac
}
is_partition_or_no_memory() {
  case $status in
    0) holds errors '' && fits many.hgr part ;;
    8) holds errors "$no_memory" && is_nothing ;;
  esac
}

# Words.
try "no words" 2 any is_usage '$hgpart'
try "a word that isn't UTF-8" 2 any is_usage '$hgpart partition $'"'\\xff'"' 4 0'

# Devices that take nothing.
try "full device for the partition" 7 "$unwritten" "$silent" '$hgpart partition $pair 4 0 out=/dev/full'
try "full device for the report" 7 "$unwritten" 'is_pair part' \
  '$hgpart partition $pair 4 0 out=part workers=1 > /dev/full'
try "full standard error for the report" 7 "" 'is_partition output 2000' \
  '$hgpart partition $some 2 0.03 out=- 2> /dev/full'
try "full device for a hypergraph" 7 "$unwritten" true '$hgpart generate 2000 > /dev/full'
try "full device for an evaluation" 7 "$unwritten" true '$hgpart evaluate $some $inputs/some.part 2 0.03 > /dev/full'
try "full device for a trial" 7 "$unwritten" true '$hgpart selfrun 4 2 > /dev/full'
try "closed pipe for a partition" 7 "$unwritten" true \
  '(sleep 0.3; exec $hgpart partition $pair 4 0 out=-) | true; exit ${PIPESTATUS[0]}'
try "closed pipe for a report" 7 "$unwritten" 'is_partition part 2000' \
  '(sleep 0.3; exec $hgpart partition $some 2 0.03 out=part) | true; exit ${PIPESTATUS[0]}'
try "closed pipe for a hypergraph" 7 "$unwritten" true '$hgpart generate 100000 | true; exit ${PIPESTATUS[0]}'
try "pipe closed in the middle" 7 "$unwritten" 'holds output "100000"' \
  '$hgpart generate 100000 | head -c 6; exit ${PIPESTATUS[0]}'
try "no device takes everything" 0 "" 'grep -q "^cost 1$" output' '$hgpart partition $pair 4 0 out=/dev/null'

# Names that can't be read or written.
try "missing file" 6 "$unread" is_nothing '$hgpart partition missing.hgr 4 0 out=part'
try "folder for a hypergraph" 6 "$unread" is_nothing '$hgpart partition . 4 0 out=part'
try "folder for a partition file" 6 "$unread" "$silent" '$hgpart evaluate $pair . 4 0'
try "folder for a fix file" 6 "$unread" is_nothing '$hgpart partition $pair 4 0 out=part fix=.'
try "folder as standard input" 6 "$unread" is_nothing '$hgpart partition - 4 0 out=part < .'
try "device whose reads fail" 6 "$unread" is_nothing '$hgpart partition /proc/self/mem 4 0 out=part'
try "folder to be written" 7 "$unwritten" "$silent" '$hgpart partition $pair 4 0 out=.'
try "missing folder to be written" 7 "$unwritten" "$silent" '$hgpart partition $pair 4 0 out=missing/part'
try "endless file" 4 'too large: line 0: Bytes\n' is_nothing '$hgpart partition /dev/zero 2 0 out=part'
for files in 4 5 6 7 8; do
  try "$files open files" "0 6 7" any is_pair_or_fault 'ulimit -n '"$files"'; exec $hgpart partition $pair 4 0 out=part'
done
export as=''
[ "$(id -u)" != 0 ] || as='setpriv --reuid=54321 --regid=54321 --clear-groups'
if [ -z "$as" ] || command -v setpriv > /dev/null; then
  try "no right to read" 6 "$unread" is_nothing 'cp $pair in; chmod 000 in; $as $hgpart partition in 4 0 out=part'
  try "no right to write" 7 "$unwritten" "$silent && holds part 'old\n'" \
    'echo old > part; chmod 444 part; $as $hgpart partition $pair 4 0 out=part'
  try "no right to make a file" 7 "$unwritten" "$silent && is_absent shut/part" \
    'mkdir shut; chmod 555 shut; $as $hgpart partition $pair 4 0 out=shut/part'
  try "no thread more" "0 8" any 'is_absent part || is_partition part 100000' \
    'ulimit -u 1; $as $hgpart partition $many 2 0.03 out=part'
fi

# Files that were there before.
try "old file, run done" 0 "" 'is_pair part' 'cp $some part; $hgpart partition $pair 4 0 out=part'
try "old file, run refused" 3 'malformed: line 1: NoHeader\n' "$silent && holds part 'old\n'" \
  'echo old > part; $hgpart partition /dev/null 4 0 out=part'
try "hypergraph written over" 0 "" 'is_pair in' 'cp $pair in; $hgpart partition in 4 0 out=in'
try "no vertices, unwritable name" 0 "" 'grep -q "^vertices 0$" output' \
  'echo 0 0 > in; $hgpart partition in 4 0 out=missing/part'

# Streams that are closed.
try "standard input closed" 6 "$unread" is_nothing '$hgpart partition - 4 0 out=part <&-'
try "standard input closed and not read" 0 "" 'is_pair part' '$hgpart partition $pair 4 0 out=part <&-'
try "standard output closed" 7 "$unwritten" 'is_pair part' '$hgpart partition $pair 4 0 out=part >&-'
try "standard output closed, input piped" 7 "$unwritten" 'is_pair part' '$hgpart partition - 4 0 out=part >&- < $pair'
try "standard output closed, partition there" 7 "$unwritten" true '$hgpart partition - 4 0 >&- < $pair'
try "standard output closed, hypergraph" 7 "$unwritten" true '$hgpart generate 4 >&-'
try "standard error closed" 7 "" 'is_pair output' '$hgpart partition $pair 4 0 out=- 2>&-'
try "standard error closed, input piped" 0 "" 'is_pair part' '$hgpart partition - 4 0 out=part 2>&- < $pair'
try "standard error closed, run refused" 3 "" is_nothing '$hgpart partition /dev/null 4 0 out=part 2>&-'
try "standard error closed, report unwritten" 7 "" 'is_pair part' \
  '$hgpart partition - 4 0 out=part 2>&- > /dev/full < $pair'
try "both outputs closed" 7 "" 'is_pair part' '$hgpart partition - 4 0 out=part >&- 2>&- < $pair'
try "all streams closed" 7 "" 'is_pair part' '$hgpart partition $pair 4 0 out=part <&- >&- 2>&-'
try "input in pieces" 0 any 'is_pair output && grep -q "^cost 1$" errors' \
  '(printf "1 "; sleep 0.1; printf "2\n1"; sleep 0.1; printf " 2\n") | $hgpart partition - 4 0'

# Limits of the system.
try "limit on a file, its signal ignored" 7 "$unwritten" is_nothing_but_a_cut_part "trap '' XFSZ; $file_limit"
try "limit on a file" "7 153" any is_nothing_but_a_cut_part "$file_limit"
try "limit on the report's file" 7 "$unwritten" is_part_with_a_cut_report "trap '' XFSZ
  ulimit -f 4
  head -c 3996 /dev/zero > report
  $hgpart partition $some 2 0.03 out=part workers=1 >> report
  code=\$?
  tail -c +3997 report > cut
  mv cut report
  exit \$code"
try "little memory for a hypergraph" 8 "$no_memory" "$silent" 'ulimit -v 60000; $hgpart generate 4194304'
for megabytes in 4 6 8 10 12 14 16 18 20 22 24 26 28 30 34 38 42 46 50 60 70 80 90 100 120 140 160 200 250 300 400; do
  try "memory of $megabytes MB" "0 8" any is_partition_or_no_memory \
    'ulimit -v '"$megabytes"'000; exec $hgpart partition $many 2 0.03 out=part'
done
try "64 workers" 0 "" 'fits many.hgr part' '$hgpart partition $many 2 0.03 out=part workers=64'
if command -v taskset > /dev/null; then
  try "64 workers on one processor" 0 "" 'fits many.hgr part' \
    'taskset -c 0 $hgpart partition $many 2 0.03 out=part workers=64'
fi

# Signals in the middle of a run.
if command -v timeout > /dev/null; then
  for signal in INT TERM KILL; do
    number=$(kill -l "$signal")
    try "signal $signal" $((128 + number)) any is_nothing \
      'exec env --default-signal=INT,TERM timeout --preserve-status -s '"$signal"' 0.2 \
      $hgpart partition $many 128 0.03 out=part'
  done
fi

printf '%d cases, %d otherwise\n' "$cases" "$otherwise"
[ "$otherwise" = 0 ]
