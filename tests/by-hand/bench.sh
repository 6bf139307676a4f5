#!/usr/bin/env bash
# Prints the tables of docs/BENCHMARK.md. Not part of the gate: times depend on the machine.
set -euo pipefail
cd "$(dirname "$0")/../.."
out=target/bench
mkdir -p "$out"
c/library >"$out/log" 2>&1 || { tail -n 20 "$out/log"; exit 1; }
library=target/staticlib/libexports.a
sum=$(sha256sum "$library" | cut -c 1-16)
RUSTFLAGS="-L native=$PWD/target/staticlib -C metadata=$sum" CARGO_TARGET_DIR=second/target/proved \
    cargo build --quiet --release --offline --features proved --bin bench --manifest-path second/Cargo.toml
bench=second/target/proved/release/bench
steps=$out/steps
cc -std=gnu11 -Wall -Wextra -O2 -I c/include -o "$steps" tests/by-hand/steps.c "$library"
devices=$out/devices
cc -std=gnu11 -Wall -Wextra -O2 -I c/include -o "$devices" tests/by-hand/devices.c "$library"

# instructions FUNCTION COMMAND..: what callgrind counts within the function
instructions() {
    valgrind --tool=callgrind --toggle-collect="$1" --callgrind-out-file="$out/callgrind" "${@:2}" 2>&1 | sed -n 's/.*Collected : //p'
}

echo '| ride | w | events | refused | instructions per event, proved | second | ratio | million events per second, proved | second | ratio |'
echo '|---|---|---|---|---|---|---|---|---|---|'
n=0
"$bench" time >"$out/times"
while IFS=$'\t' read -r name w events refused proved second; do
    p=$(instructions matlink_lent_run "$bench" proved "$n")
    s=$(instructions second_run "$bench" second "$n")
    awk -v name="$name" -v w="$w" -v e="$events" -v r="$refused" -v pt="$proved" -v st="$second" -v p="$p" -v s="$s" 'BEGIN {
        printf "| %s | %d | %d | %d | %.0f | %.0f | %.1f | %.2f | %.2f | %.1f |\n", name, w, e, r, p/e, s/e, p/s, pt/1e6, st/1e6, st/pt }'
    n=$((n + 1))
done <"$out/times"

echo
echo '| ride | w | events | instructions per event, matlink_lent_step | matlink_step | million events per second |'
echo '|---|---|---|---|---|---|'
"$steps" list >"$out/rides"
while IFS=$'\t' read -r n name w events; do
    lent=$(instructions matlink_lent_step "$steps" ride "$n")
    whole=$(instructions one_step "$steps" ride "$n")
    awk -v name="$name" -v w="$w" -v e="$events" -v l="$lent" -v c="$whole" -v t="$("$steps" time "$n")" 'BEGIN {
        printf "| %s | %d | %d | %.0f | %.0f | %.2f |\n", name, w, e, l/e, c/e, t }'
done <"$out/rides"

echo
echo '| rows of the record | page | rows of the page | instructions, matlink_page | second | ratio |'
echo '|---|---|---|---|---|---|'
for page in '1 0' '60 0' '100000 0' '100000 1666' '100000 1667' '100001 0'; do
    rows=$("$bench" page $page)
    p=$(instructions matlink_page "$bench" page $page)
    s=$(instructions second_page "$bench" page $page)
    awk -v page="$page" -v r="$rows" -v p="$p" -v s="$s" 'BEGIN {
        sub(" ", " | ", page); printf "| %s | %d | %d | %d | %.1f |\n", page, r, p, s, p/s }'
done

echo
echo '| entries | rows of each | bytes of the file | instructions, matlink_file_lookup | second | ratio | matlink_file_write | second | ratio |'
echo '|---|---|---|---|---|---|---|---|---|'
for file in '0 0' '1 1' '1 60' '6 1000' '64 1' '64 60'; do
    bytes=$("$bench" file $file)
    line="| ${file/ / | } | $bytes |"
    for part in lookup write; do
        p=$(instructions "matlink_file_$part" "$bench" file $file)
        s=$(instructions "second_$part" "$bench" file $file)
        line+=$(awk -v p="$p" -v s="$s" 'BEGIN { printf " %d | %d | %.1f |", p, s, p/s }')
    done
    echo "$line"
done

echo
echo '| function | bytes of stack |'
echo '|---|---|'
"$steps" stack | sed 's/\(.*\)\t\(.*\)/| \1 | \2 |/'
"$devices" stack | sed 's/\(.*\)\t\(.*\)/| \1 | \2 |/'

# code FUNCTION..: bytes of code and of constants, with all that they call inside the library
code() {
    ld --gc-sections --unresolved-symbols=ignore-all -e "$1" $(printf -- '-u %s ' "$@") -o "$out/code" "$library"
    size -A -d "$out/code" | awk '$1 ~ /^\.text/ { code += $2 } $1 ~ /^\.rodata/ { constants += $2 } END { print code " | " constants + 0 }'
}

echo
echo '| functions | bytes of code | of constants |'
echo '|---|---|---|'
for name in open step run; do echo "| matlink_lent_$name | $(code "matlink_lent_$name") |"; done
echo "| these three together | $(code matlink_lent_open matlink_lent_step matlink_lent_run) |"
for name in page file_lookup file_write; do echo "| matlink_$name | $(code "matlink_$name") |"; done
echo "| all nine | $(code matlink_lent_{open,step,run,ride,read_frame,write_frame} matlink_{page,file_lookup,file_write}) |"
echo "| a mat by itself, its five calls | $(code matlink_lent_mat_{open,send,resend,receive,tick}) |"
echo "| a pad by itself, its four calls | $(code matlink_lent_pad_{open,receive,reply,tick}) |"

echo
echo '| bytes of a mat | of a pad |'
echo '|---|---|'
"$devices" size | sed 's/\(.*\)\t\(.*\)/| \1 | \2 |/'

beside=$out/beside
cc -std=gnu11 -Wall -Wextra -pedantic -O2 -I c/include -o "$beside" tests/by-hand/beside.c "$library"

echo
echo '| way | one row at a time | 8 in a batch | 32 in a batch |'
echo '|---|---|---|---|'
"$beside" list >"$out/ways"
while IFS=$'\t' read -r n name rows; do
    line="| $name |"
    # rows in a batch, w
    for sizes in '1 8' '8 8' '32 32'; do
        all=$(instructions all_rows "$beside" way "$n" $sizes)
        line+=$(awk -v a="$all" -v r="$rows" 'BEGIN { printf " %.0f |", a/r }')
    done
    echo "$line"
done <"$out/ways"
