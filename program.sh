# What ./list and ./table share. They source it, once they have set `here`, the folder of the repository, and `name`, that of their program.
# shellcheck shell=sh disable=SC2154 # both are set there

# ends STATUS MESSAGE
ends() {
    echo "$name: $2" >&2 || :
    exit "$1"
}

# output_open WHAT: standard output is open, so that it can be written
output_open() {
    { true 3>&1; } 2>/dev/null || ends 1 "standard output is closed: $1 cannot be written"
}

# run_program: has the program built, if need be, and runs it on standard input. What it writes goes straight to standard output; what it tells on
# standard error decides the status, but for 141, which the program answers where its reader has gone, and of which nothing is told.
run_program() {
    "$here/build" "$name" </dev/null >&2
    exec 3>&1
    status=0
    told=$("$here/target/$name" 2>&1 >&3 3>&-) || status=$?
    [ "$status" -ne 141 ] || exit 141
    [ -z "$told" ] || { printf '%s\n' "$told" >&2 || :; exit 1; }
    [ "$status" -eq 0 ] || ends "$status" "the program was ended by signal $((status - 128))"
    exit "$status"
}
