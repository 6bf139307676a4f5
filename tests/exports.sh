#!/usr/bin/env bash
# The static library from C: the header, the texts, the example and the tests of every function are compiled in three standards
# without a warning, linked and run. The header's answers are those of crates/limits, and their texts those of docs/RIDES.md.
set -euo pipefail
here=target/exports
mkdir -p "$here"
c/library >"$here/log" 2>&1 || { tail -n 20 "$here/log"; exit 1; }

# compile STANDARD FILE: the object of one file
compile() {
    local language=c
    case $1 in c++*) language=c++ ;; esac
    cc -x "$language" -std="$1" -Wall -Wextra -pedantic -Werror -O2 -I c/include -c -o "$here/$1-$(basename "$2" .c).o" "$2"
}
# build STANDARD PROGRAM: its object with the library and with the texts as C99, also where the program is C++
build() { cc -o "$here/$2" "$here/$1-$2.o" "$here/c99-matlink_text.o" target/staticlib/libexports.a; }

cat >"$here/example.expected" <<'END'
open: 0
send row 0: 0
send row 1: 0
row 0 is lost: 0
  frame written: 0
  frame read: 0
  it is the frame that was written
row 1 arrives: 0
reply: 20, the wanted row is not held, or its reply timer has run out
send row 0 again: 16, the resend timer of this row has not run out
the resend wait passes: 0
send row 0 again: 0
send row 1 again: 0
  frame written: 0
  frame read: 0
  it is the frame that was written
row 0 arrives: 0
row 1 arrives: 0
reply: 0
  frame written: 0
  frame read: 0
  it is the frame that was written
reply arrives: 0
every row was sent, recorded, acknowledged
of four data messages one was lost
the record is the supply
END

for standard in c99 c11 c++11; do
    # the texts include the header and nothing else, so it is whole in itself
    compile "$standard" c/matlink_text.c
    for file in c/example.c tests/exports.c tests/exports_bytes.c tests/exports_devices.c; do
        compile "$standard" "$file"
        build "$standard" "$(basename "$file" .c)"
    done
    timeout 10 "$here/example" | diff "$here/example.expected" - || { echo "$standard: the example printed something else"; exit 1; }
    for program in exports exports_bytes exports_devices; do
        timeout 10 "$here/$program" | diff "tests/$program.expected" - || { echo "$standard: a call did something else"; exit 1; }
    done
done

# The example ends with 1 where an answer is not the one that it expects.
sed 's/MATLINK_TIMER_RUNNING/MATLINK_DONE/' c/example.c >"$here/wrong.c"
compile c99 "$here/wrong.c"
build c99 wrong
status=0
timeout 10 "$here/wrong" >"$here/wrong.out" || status=$?
[ "$status" = 1 ] || { echo "the example with a wrong answer: exit status $status"; exit 1; }

# The answers: WindowFull is MATLINK_WINDOW_FULL, with the same number, and its text is the meaning that docs/RIDES.md gives.
diff <(echo 'DONE = 0'; sed -n 's/^ *Refusal::\([A-Za-z]*\) => \([0-9]*\),$/\1 = \2/p' crates/limits/src/answer.rt | sed 's/\([a-z]\)\([A-Z]\)/\1_\2/g' | tr a-z A-Z) \
    <(sed -n '/^enum matlink_answer {$/,/^};$/s/^ *MATLINK_\([A-Z_]* = [0-9]*\)\(,\| \).*/\1/p' c/include/matlink.h) || { echo 'the header has other answers'; exit 1; }
diff <(sed -n 's/^| \([0-9]*\) | `[A-Za-z]*` | \(.*\) |$/\1 \2/p' docs/RIDES.md |
    awk '{ text[$1] = substr($0, length($1) + 2) } END { for (n = 0; n < 256; n++) print n, n in text ? text[n] : "unknown answer" }') \
    <("$here/exports" texts) || { echo 'the answers have other texts'; exit 1; }
echo 'exports: every call from C answered what it must'
