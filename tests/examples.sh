# The examples, built with the library and with the model in its place. For tests/run, which has `library`, `warnings` and `out`.
# shellcheck shell=bash disable=SC2154

# the example that replays a session file, over all of them: by the library, by it in pieces of one byte, and by the model in its place; and what it says
# where something is amiss
session_example() {
    # shellcheck disable=SC2086
    gcc -std=c99 $warnings -O2 -Iinclude examples/session.c "$library" -o "$out/session"
    # shellcheck disable=SC2086
    gcc -std=c99 $warnings -O2 -DPIECE=1 -Iinclude examples/session.c "$library" -o "$out/session_bytes"
    # shellcheck disable=SC2086
    gcc -std=c99 $warnings -O2 -Iinclude examples/session.c "$out/libstand_in.a" -lpthread -ldl -lm -o "$out/session_model"
    local program status file
    for program in session session_bytes session_model; do
        while read -r file; do
            "$out/$program" "crates/replay/data/$file"
        done <crates/replay/args 2>"$out/$program.told" | cmp - crates/replay/stdout
    done
    amiss() { # STATUS MESSAGE COMMAND..
        local wanted=$1 message=$2
        status=0
        "${@:3}" 2>"$out/session.amiss" || status=$?
        if [ "$status" != "$wanted" ] || ! grep -qF -- "$message" "$out/session.amiss"; then
            echo "example: ${*:3}: status $status, $(cat "$out/session.amiss")"
            return 1
        fi
    }
    amiss 2 'usage: session FILE' "$out/session"
    amiss 2 'usage: session FILE' "$out/session" one two
    amiss 1 'No such file' "$out/session" "$out/no.session"
    amiss 1 'Is a directory' "$out/session" crates
    amiss 0 'record 0: a wrong record' "$out/session" crates/replay/data/dots_of_3_bytes.session >"$out/session.said"
    amiss 1 'standard output: No space left' "$out/session" crates/replay/data/whole_case.session >/dev/full
    "$out/session" /dev/stdin <crates/replay/data/whole_case.session | tail -n 1 | grep -qx 'refused 6 1'
    echo "example: $(wc -l <crates/replay/args) session files listed from C as by hand, by the library and by the model"
}

# the first example's picture, drawn by the library and by the model in its place, and then the second example
example() {
    rustc --edition 2021 -O -D warnings --crate-type staticlib tests/stand_in.rs -o "$out/libstand_in.a"
    # shellcheck disable=SC2086
    gcc -std=c99 $warnings -O2 -Iinclude examples/frame.c "$library" -o "$out/frame"
    # shellcheck disable=SC2086
    gcc -std=c99 $warnings -O2 -Iinclude examples/frame.c "$out/libstand_in.a" -lpthread -ldl -lm -o "$out/frame_model"
    "$out/frame" "$out/frame.ppm" | tee "$out/frame.said"
    "$out/frame_model" "$out/frame_model.ppm" | cmp - "$out/frame.said"
    cmp "$out/frame.ppm" "$out/frame_model.ppm"
    echo 'example: the same picture as the model draws'
    session_example
}
