#!/usr/bin/env bash
# The rides of rides/ print what stands in their .out, .brief and .page files and draw what stands in docs/charts, faults in a ride
# are reported by line, and docs/RIDES.md has the tables that the program goes by.
set -euo pipefail
shopt -s lastpipe # so that `failed` is set where `prints` ends a pipeline
here=target/rides
mkdir -p "$here"
tools/program trial >"$here/log" 2>&1 || { tail -n 20 "$here/log"; exit 1; }
c/library >"$here/log" 2>&1 || { tail -n 20 "$here/log"; exit 1; }
rustc --edition 2021 -O -D warnings -L native=target/staticlib -o "$here/ride" rides/ride.rs
failed=0

# fails WORDS: the test goes on, and fails in the end
fails() {
    echo "$1"
    failed=1
}

# same FILE WORDS..: the command ends with status 0 and prints the file
same() {
    "${@:2}" >"$here/out" || fails "${*:2}: exit status $?"
    cmp "$1" "$here/out" || { diff "$1" "$here/out" | head -n 20 || true; fails "${*:2}: prints something else than $1"; }
}

for file in rides/*.ride; do
    name=$(basename "$file" .ride)
    same "rides/$name.out" rides/ride --chart "$here/chart.svg" "$file"
    cmp "docs/charts/$name.svg" "$here/chart.svg" || fails "$file: draws something else than docs/charts/$name.svg"
    same "rides/$name.brief" "$here/ride" --brief "$file"
    same "rides/$name.brief" "$here/ride" --trial target/bin/trial "$file"
    [ ! -e "rides/$name.page" ] || same "rides/$name.page" "$here/ride" --page 0 "$file"
done
for file in rides/*.out rides/*.brief rides/*.page docs/charts/*.svg; do
    name=$(basename "$file")
    [ -e "rides/${name%.*}.ride" ] || fails "$file: there is no such ride"
done

limits=$'window 1\ndata life 2\nreply life 2\nreply wait 2\n'
title=$'line  event                answer'
forms='the lines of a ride are `send`, `resend K`, `data P arrives`, `reply`, `reply P arrives`, `lose data P`, `lose reply P`, `tick D`, `window N`, `data life N`, `reply life N`, `reply wait N`, `resend wait N`, `event N A`, `rows N`, `row C`, `row C C .. C`'

# prints NAME STATUS EXPECTED: the ride on standard input, with --brief, ends with STATUS and prints the lines EXPECTED alone
prints() {
    cat >"$here/x.ride"
    local status=0
    "$here/ride" --brief "$here/x.ride" >"$here/out" 2>&1 || status=$?
    sed -i "s|^$here/x.ride: *||" "$here/out"
    [ "$status" = "$2" ] || fails "$1: exit status $status"
    printf '%s\n' "$3" >"$here/expected"
    diff "$here/expected" "$here/out" || fails "$1: prints something else"
}

# lines WORDS..: one line for each
lines() { printf '%s\n' "$@"; }

# Openings that are refused
printf 'window 0\ndata life 2\nreply life 2\nreply wait 2\n' | prints 'w 0' 0 'refused 1  the window is not 1 to 32'
printf 'window 1\ndata life 251\nreply life 2\nreply wait 2\n' | prints 'a life of 251' 0 'refused 2  the data life, the reply life or the reply wait is not 1 to 250'
printf '%sresend wait 3\n' "$limits" | prints 'a wait of the sum less 3' 0 "refused 3  the resend wait is neither 0 nor from the three times' sum less 2 to 1000"
printf '%sresend wait 4\n' "$limits" | prints 'a wait of the sum less 2' 0 "$title"$'\nsent 0 acknowledged 0 recorded 0'
printf '%s' "$limits" | prints 'no events' 0 "$title"$'\nsent 0 acknowledged 0 recorded 0'

# Faults in the text
missing='before the events there is no line `window N`, `data life N`, `reply life N`, `reply wait N`'
late='limits and rows stand before the first event, which is in line'
printf '' | prints 'no text' 1 "1: $missing"
printf '# a ride\nwindow 2\n\nsend\ntick 1\n' | prints 'limits left out' 1 '4: before the events there is no line `data life N`, `reply life N`, `reply wait N`'
printf '%srows 1\nsend\nwindow 1\nrows 1\n' "$limits" | prints 'limits and rows behind the events' 1 "$(lines "7: $late 6" "8: $late 6")"
printf 'send\nwindow 2\n%s' "$limits" | prints 'limits behind an event without limits' 1 "$(lines "1: $missing" {2..6}": $late 1")"
printf '%stick 256\nwindow 1\n' "$limits" | prints 'limits behind a wrong event' 1 "$(lines '5: `256` is not a whole number from 0 to 255' "6: $late 5")"
printf '%swindow 1\n' "$limits" | prints 'a limit twice' 1 '5: a second line `window N`'
printf '%sresend wait\nresend\ntick\nlose data\nreply arrives\nrows\n' "$limits" | prints 'lines without a number' 1 "$(
    lines '5: `resend wait N` lacks its number, which is a whole one from 0 to 65535'
    for k in '6 resend K' '7 tick D' '8 lose data P' '9 reply P arrives' '10 rows N'; do
        echo "${k%% *}: \`${k#* }\` lacks its number, which is a whole one from 0 to 255"
    done
)"
printf '%sdance\nsned\nSend\nsend 1\ndata 0\nlose 0 data\nWINDOW 2\narrive data 0\n' "$limits" | prints 'no such lines' 1 "$(
    lines '5: no line of a ride: `dance`'
    for k in '6 sned=send' '7 Send=send' '8 send 1=send' '9 data 0=data P arrives' '10 lose 0 data=lose data P' \
        '11 WINDOW 2=window N' '12 arrive data 0=data P arrives'; do
        line=${k#* }
        echo "${k%% *}: no line of a ride: \`${line%=*}\`; the nearest is \`${line#*=}\`"
    done
    echo "$forms"
)"
printf '\357\273\277%ssend\n' "$limits" | prints 'a byte order mark' 0 "$(lines "$title" '   5  send                 11  every row of the supply has been sent' 'sent 0 acknowledged 0 recorded 0')"
printf '\377\376w\0' | prints 'UTF-16' 1 '1: the text is UTF-16; a ride is UTF-8'
printf '%stick 256\ntick -1\ntick +1\ntick 1.5\nresend wait 65536\nrow 65536\nrow Torn\n' "$limits" | prints 'no such numbers' 1 "$(
    for k in '5 256' '6 -1' '7 +1' '8 1.5'; do echo "${k% *}: \`${k#* }\` is not a whole number from 0 to 255"; done
    lines "9: $late 5"
    for k in '10 65536' '11 Torn'; do echo "${k% *}: \`${k#* }\` is neither a whole number from 0 to 65535 nor \`torn\`"; done
)"
printf '%sresend wait 65536\n' "$limits" | prints 'no such wait' 1 '5: `65536` is not a whole number from 0 to 65535'
printf '%srow\nrow 1 2\nrow 1 2 3 4 5 6 7 8 9 10 11 12 13 14 15 16 17\n' "$limits" | prints 'rows of other lengths' 1 "$(for k in '5 0' '6 2' '7 17'; do echo "${k% *}: a row has 16 cells, or one that stands for all 16; here are ${k#* }"; done)"

# The most rows and the most bytes: 7 + 255 * 32 + 16,396 * 2 is 40,959.
printf '%srows 200\nrow 7\nrows 55\nrow 7\n' "$limits" | prints '257 rows' 1 '7: the trial takes at most 255 rows, and with this line there are 256'
{ printf '%srows 255\n' "$limits"; printf 'send\n%.0s' {1..16397}; } | prints '40,961 bytes' 1 '16402: the trial takes at most 40960 bytes, and with this event there are 40961'
{ printf '%srows 255\n' "$limits"; printf 'event 0 0\n%.0s' {1..16396}; } >"$here/x.ride"
for how in '' --brief '--trial target/bin/trial'; do
    account=0 # the line behind the counts
    [ -n "$how" ] || account=1
    "$here/ride" $how "$here/x.ride" | tail -n $((account + 1)) | head -n 1 | grep -qx 'sent 0 acknowledged 0 recorded 0' || fails "40,959 bytes $how: prints something else"
done

# A reader that stops early
rm -f "$here/status"
{ "$here/ride" "$here/x.ride" 2>"$here/err" || echo "$?" >"$here/status"; } | head -n 1 >"$here/out"
[ ! -e "$here/status" ] && [ ! -s "$here/err" ] || fails "a closed pipe: status $(cat "$here/status"), $(cat "$here/err")"

# asks STATUS ERRORS WORDS..: the command ends with STATUS and has these lines on standard error
asks() {
    local status=0
    "${@:3}" >"$here/out" 2>"$here/err" || status=$?
    [ "$status" = "$1" ] || fails "${*:3}: exit status $status"
    [ "$(cat "$here/err")" = "$2" ] || { cat "$here/err"; fails "${*:3}: other words on standard error"; }
}

# Several rides, one with a fault and one that is not there
printf 'tick 1\n' >"$here/x.ride"
asks 1 "$(lines "$here/x.ride:1: $missing" "$here/none.ride: No such file or directory (os error 2)")" \
    "$here/ride" --brief rides/quiet.ride "$here/x.ride" "$here/none.ride" rides/short-wait.ride
{ lines rides/quiet.ride "$(cat rides/quiet.brief)" '' "$here/x.ride" '' "$here/none.ride" '' rides/short-wait.ride; cat rides/short-wait.brief; } |
    cmp - "$here/out" || fails 'several rides: prints something else'

# The command line
help='; rides/ride --help says how it is called'
for word in --help -h; do
    same rides/usage.txt rides/ride "$word"
    same rides/usage.txt "$here/ride" rides/quiet.ride "$word"
done
asks 1 "$(cat rides/usage.txt)" rides/ride
asks 1 "no ride is named$help" "$here/ride" --brief
asks 1 "there is no option --bref$help" "$here/ride" --bref rides/quiet.ride
asks 1 "--chart is followed by a file whose name ends with .svg$help" "$here/ride" --chart "$here/x.ride" rides/quiet.ride
asks 1 "--chart and --bytes take one ride$help" "$here/ride" --chart "$here/chart.svg" rides/quiet.ride rides/quiet.ride
asks 1 "--chart, --trial and --bytes exclude each other$help" "$here/ride" --chart "$here/chart.svg" --trial target/bin/trial rides/quiet.ride
asks 2 "$here/none/chart.svg: No such file or directory (os error 2)" "$here/ride" --chart "$here/none/chart.svg" rides/quiet.ride
asks 2 "$here/none: No such file or directory (os error 2)" "$here/ride" --trial "$here/none" rides/quiet.ride
printf '#!/bin/sh\ncat >/dev/null\n' >"$here/silent" && chmod +x "$here/silent"
asks 2 "$here/silent printed something else than answers:" "$here/ride" --trial "$here/silent" rides/quiet.ride

# The first build says what it does, and why it failed. Commands that build nothing stand in for rt and rustc. It is tried outside
# the repository, in which `rt ci` allows one crates.txt.
fresh=$(mktemp -d)
trap 'rm -rf "$fresh"' EXIT
mkdir -p "$fresh/bin" "$fresh/crates/exports_c" "$fresh/c"
cp -r rides "$fresh/rides"
cp c/library "$fresh/c" && touch "$fresh/crates.txt"
says='rides/ride: builds the library and checks its proofs, which takes some minutes the first time (output: target/rides/log)'
printf '#!/bin/sh\necho refused; exit 1\n' >"$fresh/bin/rt"
printf '#!/bin/sh\ncp "%s" target/rides/ride\n' "$PWD/$here/ride" >"$fresh/bin/rustc"
chmod +x "$fresh/bin/rt" "$fresh/bin/rustc"
asks 2 "$(lines "$says" refused 'rides/ride: failed: c/library')" env PATH="$fresh/bin:$PATH" "$fresh/rides/ride" rides/quiet.ride
printf '#!/bin/sh\nmkdir -p out && echo >out/libexports_c.a\n' >"$fresh/bin/rt"
asks 0 "$(lines "$says" 'rides/ride: builds the program, which takes some seconds (output: target/rides/rustc.log)')" \
    env PATH="$fresh/bin:$PATH" "$fresh/rides/ride" rides/quiet.ride
cmp rides/quiet.out "$here/out" || fails 'the first build: prints something else'
asks 0 '' env PATH="$fresh/bin:$PATH" "$fresh/rides/ride" rides/quiet.ride

# A library that answers 0 and does nothing: the program finds out that the link does not show the message.
wrong=$here/wrong
mkdir -p "$wrong"
printf '%s\n' '#include <stdint.h>' 'uint8_t matlink_lent_open(uint16_t *head) { head[0] = 1; return 0; }' \
    'uint8_t matlink_lent_step(uint16_t *head) { return (uint8_t)(head[0] - 1); }' 'uint8_t matlink_page(void) { return 0; }' >"$wrong/wrong.c"
cc -c -o "$wrong/wrong.o" "$wrong/wrong.c"
ar rcs "$wrong/libexports.a" "$wrong/wrong.o"
rustc --edition 2021 -L native="$wrong" -o "$wrong/ride" rides/ride.rs
asks 2 'rides/quiet.ride: line 9: the link shows 0 data messages and 0 replies, and by the events there are 1 and 0' \
    "$wrong/ride" rides/quiet.ride

# Pages: rows 0 to 60 are recorded, the last one with other cells; row 61 is in the air.
{
    printf '%srows 60\nrow 0 409 410 819 820 1229 1639 2048 2458 2867 2868 3277 3686 3687 4094 4095\nrow 0\n' "$limits"
    for ((n = 0; n < 61; n++)); do printf 'send\ndata 0 arrives\nreply\nreply 0 arrives\n'; done
    echo send
} >"$here/x.ride"
for ((n = 0; n < 60; n++)); do printf '%5d 0000000000000000\n' "$n"; done >"$here/expected"
same "$here/expected" "$here/ride" --page 0 "$here/x.ride"
echo '   60 0011234566788999' >"$here/expected"
same "$here/expected" "$here/ride" --page 1 "$here/x.ride"
echo 'refused 31  the record has no row for this page (pages count from 0)' >"$here/expected"
for n in 2 307445734561825861 18446744073709551615; do same "$here/expected" "$here/ride" --page "$n" "$here/x.ride"; done
same rides/short-wait.brief "$here/ride" --page 0 rides/short-wait.ride
for words in '--page -1' '--page 18446744073709551616' '--page'; do
    asks 1 "--page is followed by the number of a page, counted from 0$help" "$here/ride" "$here/x.ride" $words
done
for words in --brief --bytes '--trial target/bin/trial' "--chart $here/chart.svg"; do
    asks 1 "--page goes with no other option$help" "$here/ride" --page 0 $words "$here/x.ride"
done

# The bytes of the paper's example
printf '%sresend wait 7\nrow 5\nsend\ndata 0 arrives\nreply\nreply 0 arrives\n' "$limits" >"$here/x.ride"
{ printf '\001\002\002\002\007\000\001'; printf '\005\000%.0s' {1..16}; printf '\001\000\003\000\004\000\005\000'; } >"$here/expected"
"$here/ride" --bytes "$here/x.ride" | cmp - "$here/expected" || fails 'the example: other bytes'

# A torn cell is 65535
printf '%srow 7 torn 0 0 0 0 0 0 0 0 0 0 0 0 0 65535\nrow torn\n' "$limits" >"$here/x.ride"
{ printf '\001\002\002\002\000\000\002'; printf '\007\000\377\377'; printf '\000%.0s' {1..26}; printf '\377%.0s' {1..34}; } >"$here/expected"
"$here/ride" --bytes "$here/x.ride" | cmp - "$here/expected" || fails 'torn cells: other bytes'

# The tables: docs/RIDES.md has each line, and crates/limits the same number for each answer.
"$here/ride" --tables >"$here/tables"
while IFS= read -r line; do
    grep -qxF "$line" docs/RIDES.md || fails "docs/RIDES.md lacks: $line"
done <"$here/tables"
sed -n '/^    line  event .*held$/,/^$/s/^    //p' docs/RIDES.md >"$here/excerpt"
[ -s "$here/excerpt" ] && ! grep -vxFf rides/loss-and-resend.out "$here/excerpt" || fails 'docs/RIDES.md: lines that rides/loss-and-resend.out lacks'
diff <(sed -n 's/^| \([0-9]*\) | `\([A-Za-z]*\)` .*/\2 \1/p' "$here/tables") \
    <(echo 'Done 0'; sed -n 's/^ *Refusal::\([A-Za-z]*\) => \([0-9]*\),$/\1 \2/p' crates/limits/src/answer.rt) || fails 'crates/limits has other numbers'

# The rides with a resend wait that is too short are those that the second implementation prints, and their events are the list of
# crates/leastwait. docs/TIMERS.md shows the first.
short_wait() {
    local name=$1 rows=$((2 * $2))
    bash second/cargo.sh run --bin short_wait -- "${@:2}" | cmp - "rides/$name.ride" || fails "rides/$name.ride: short_wait ${*:2} prints something else"
    "$here/ride" --bytes "rides/$name.ride" | tail -c "+$((8 + 32 * rows))" | od -An -v -tu1 -w1 | tr -d ' ' >"$here/out"
    tr '\n' ' ' <crates/leastwait/specs/Shown.antt | sed "s/.* ${name//-/_} : [^≡]*≡\([^]]*\).*/\1/" | grep -o '[0-9]*' >"$here/expected"
    [ -s "$here/out" ] && cmp "$here/expected" "$here/out" || fails "rides/$name.ride: other events than crates/leastwait/specs/Shown.antt"
}
short_wait short-wait 1 2 2 2 3
short_wait short-wait-riding 2 5 5 3 10
sed -n '/^    # A resend wait that is too short/,/^#/s/^    //p' docs/TIMERS.md | diff <(grep . rides/short-wait.ride) - || fails 'docs/TIMERS.md: other lines than rides/short-wait.ride'

if [ "$failed" = 0 ]; then echo "rides: $(ls rides/*.ride | wc -l) rides, their charts, the faults and the tables are as they must be"; fi
exit "$failed"
