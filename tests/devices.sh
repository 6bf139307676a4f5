#!/usr/bin/env bash
# A mat and a pad as two processes: c/devices.c is compiled without a warning, linked and run. With its own seed it prints what
# tests/devices.expected has; with other seeds and windows it ends with 0 as well. With one wrong line it must end with 1 and say
# what is not so. The code in docs/FIRMWARE.md compiles, and the names there are the header's.
set -euo pipefail
here=target/devices
mkdir -p "$here"
c/library >"$here/log" 2>&1 || { tail -n 20 "$here/log"; exit 1; }

flags=(-std=c99 -D_POSIX_C_SOURCE=200809L -Wall -Wextra -pedantic -Werror -O1 -I c/include)
cc "${flags[@]}" -c -o "$here/matlink_text.o" c/matlink_text.c
# build SOURCE: the program that it makes, under the same name without .c, in target/devices
build() { cc "${flags[@]}" -o "$here/$(basename "$1" .c)" "$1" "$here/matlink_text.o" target/staticlib/libexports.a; }

build c/devices.c
timeout 60 "$here/devices" | diff tests/devices.expected - || { echo 'the devices printed something else'; exit 1; }
for run in '2 1000 1' '3 1000 8' '4 1000 32' '5 500 2' '6 500 7' '7 500 31' '0 1 1' '8 40 32'; do
    # shellcheck disable=SC2086
    timeout 60 "$here/devices" $run >"$here/out" || { echo "devices $run: exit status $?"; tail -n 5 "$here/out"; exit 1; }
    [ "$(tail -n 1 "$here/out")" = 'the record is the supply' ] || { echo "devices $run: no record"; exit 1; }
done

# wrong WHAT NOT-SO EDIT: with the edit, which changes one line, the program ends with 1, and the last line says what is not so.
wrong() {
    local status=0
    sed "$3" c/devices.c >"$here/wrong.c"
    [ "$(diff c/devices.c "$here/wrong.c" | grep -c '^>')" = 1 ] || { echo "$1: the edit does not change one line"; exit 1; }
    build "$here/wrong.c"
    timeout 60 "$here/wrong" >"$here/out" || status=$?
    [ "$status" = 1 ] && [ "$(tail -n 1 "$here/out")" = "NOT SO: $2" ] || {
        echo "$1: exit status $status"
        tail -n 5 "$here/out"
        exit 1
    }
}
old='the mat answers 0, and not 19, the reply names a row that is not outstanding'
wrong 'frames outlive their life' "$old" 's/if (--air\[i\].life > 0) i++;/if (1) i++;/'
wrong 'frames are copied' "$old" 's/frame = taken_out(due);/frame = chance(8) ? taken_out(due) : air[due];/'
wrong 'the clock of the mat is faster' "$old" 's/matlink_mat_tick(&device.mat, 1)/matlink_mat_tick(\&device.mat, 2)/'
wrong 'an old row gets no reply' 'every row was sent and acknowledged' 's/if (written > 0) transmit(reply, written);/if (written > 36) transmit(reply, written);/'
wrong 'a cell is changed in the record' 'the record is the supply' 's/^    done += (size_t)recorded;/& cells[5] = 0;/'
wrong 'noise is a good frame' 'the mat answers 26, and not 0, the event was carried out' 's/251 + chance(6)/250/'
wrong 'a refused call changes the device' 'no refused call changed anything' 's/^    report.answers\[call\]\[answer\]++;/& device.pad.cell[511] += answer == MATLINK_BAD_FRAME_LIFE;/'
wrong 'the resend wait is too short' 'no answer came that must not come' 's/REPLY_LIFE + REPLY_WAIT - 2/REPLY_LIFE + REPLY_WAIT - 3/'

awk '/^```$/ { on = 0 } on; /^```c$/ { on = 1 }' docs/FIRMWARE.md >"$here/firmware.c"
cc "${flags[@]}" -c -o "$here/firmware.o" "$here/firmware.c"
for name in $(grep -o 'matlink_[a-z_]*[a-z]' docs/FIRMWARE.md | sort -u); do
    [ -e "c/include/$name.h" ] || grep -qw "$name" c/include/*.h || { echo "docs/FIRMWARE.md: there is no $name"; exit 1; }
done
echo 'devices: the record was the supply in every run'
