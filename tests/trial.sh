#!/usr/bin/env bash
# The trial on the paper's example and on inputs that are refused.
set -euo pipefail
shopt -s lastpipe # so that `failed` is set in this shell
mkdir -p target
tools/program trial >target/trial.log 2>&1 || { tail -n 20 target/trial.log; exit 1; }
failed=0

# holds NAME EXPECTED: the program, given standard input, prints the line or lines EXPECTED and nothing else
holds() {
    timeout 10 target/bin/trial >target/trial.out || { echo "$1: exit status $?"; failed=1; }
    printf '%s\n' "$2" >target/trial.expected
    cmp -s target/trial.expected target/trial.out || { echo "$1: printed"; cat target/trial.out; failed=1; }
}

# w, data life, reply life, reply wait, resend wait (low byte, high byte)
limits='\001\002\002\002\007\000'
row=$(printf '\\005\\000%.0s' {1..16})
events='\001\000\003\000\004\000\005\000'

printf "$limits\001$row$events" | holds 'the example' "$(printf '%s\n' '1 0 0' '3 0 0' '4 0 0' '5 0 0' 'sent 1 acknowledged 1 recorded 1')"
# docs/RULES.md shows this input, which is the trial's stdin, and what it prints.
bytes() { od -An -v -tu1 -w1000 | tr -s ' ' | sed 's/^ //'; }
sed -n "s/.*The bytes \([0-9 ]*\), then 5 0 sixteen times, then \([0-9 ]*\) print:$/\1 $(printf '5 0 %.0s' {1..16})\2/p" docs/RULES.md |
    cmp - <(bytes <crates/trial/stdin) || { echo 'docs/RULES.md: another input than crates/trial/stdin'; failed=1; }
sed -n '/sixteen times, then/,/^The trial/s/^    //p' docs/RULES.md | cmp - crates/trial/stdout || { echo 'docs/RULES.md: another output'; failed=1; }
printf "$limits\001$row" | holds 'no events' 'sent 0 acknowledged 0 recorded 0'
printf "$limits\000\001\000" | holds 'no rows' "$(printf '%s\n' '1 0 11' 'sent 0 acknowledged 0 recorded 0')"
printf "$limits\001$row\377\377\010\000" | holds 'refused events' "$(printf '%s\n' '255 255 8' '8 0 9' 'sent 0 acknowledged 0 recorded 0')"

printf '\000\002\002\002\000\000\001'"$row$events" | holds 'w 0' 'refused 1'
printf '\041\002\002\002\000\000\000' | holds 'w 33' 'refused 1'
printf '\001\002\373\002\000\000\000' | holds 'a reply life of 251' 'refused 2'
printf '\001\002\002\002\003\000\000' | holds 'a resend wait of the sum less 3' 'refused 3'
printf '\001\002\002\002\004\000\000' | holds 'a resend wait of the sum less 2' 'sent 0 acknowledged 0 recorded 0'
printf '\001\002\002\002\351\003\000' | holds 'a resend wait of 1001' 'refused 3'
# A resend after 3 ticks and one after 4: with 0, as with 4, the second is done; with 5 both come too early.
for wait in '0 0' '4 0' '5 16'; do
    printf "\001\002\002\002\00${wait% *}\000\001$row"'\001\000\010\003\002\000\010\001\002\000' |
        holds "a resend wait of ${wait% *}" "$(printf '%s\n' '1 0 0' '8 3 0' '2 0 16' '8 1 0' "2 0 ${wait#* }" 'sent 1 acknowledged 0 recorded 0')"
done
printf "$limits\001$row$events\001" | holds 'an odd count of event bytes' 'refused 5'
printf '' | holds 'empty input' 'refused 29'
printf "$limits" | holds '6 bytes' 'refused 29'
printf '\000\002\002\002\000\000\001'"$row" | head -c 38 | holds 'a row without its last byte, and w 0' 'refused 29'

# The longest input: 255 rows and 32,793 bytes of events, which is odd; one byte less; one byte more.
long() { printf "$limits\377"; head -c "$(($1 - 7))" /dev/zero; }
long 40960 | holds '40,960 bytes' 'refused 5'
long 40959 | holds '40,959 bytes' "$(yes '0 0 8' | head -n 16396; echo 'sent 0 acknowledged 0 recorded 0')"
long 40961 | holds '40,961 bytes' 'refused 29'
long 70000 | holds '70,000 bytes' 'refused 29'

# A slow writer: the input comes in parts.
{ printf "$limits\001"; sleep 0.2; printf "$row"; sleep 0.2; printf "$events"; } | holds 'input in parts' "$(printf '%s\n' '1 0 0' '3 0 0' '4 0 0' '5 0 0' 'sent 1 acknowledged 1 recorded 1')"

if [ "$failed" = 0 ]; then echo 'trial: every input printed what it must'; fi
exit "$failed"
