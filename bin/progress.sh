# shellcheck shell=sh disable=SC2154
# What bin/build and bin/library share: they prove the crates of a target, report how far that is,
# and print its errors if it fails. A script that sources this file sets
#   top      the folder of the repository
#   target   the crate that is built
#   product  what it is called in messages
#   speaker  the name that messages begin with
#   faster   how to build it without a proof, as a sentence without a period

say() {
    echo "$speaker: $*" >&2
}

# Each crate's share of the time that a first build takes. The shares of rxl and of the crates below
# it add up to 100.
share_of() {
    case $1 in
    regex_lite_syntax) echo 14 ;;
    regex_lite_engine) echo 19 ;;
    regex_lite_meta) echo 12 ;;
    regex_lite) echo 31 ;;
    *) echo 24 ;;
    esac
}

# The shares of these crates together.
shares_of() {
    sum=0
    for name in "$@"; do
        sum=$((sum + $(share_of "$name")))
    done
    echo "$sum"
}

# The crates that the target is built from, lowest first, each on a line: all libraries for other
# crates, and the target.
crates() {
    while IFS=: read -r declared _; do
        name=${declared% *} # without the kind, where there is one
        if [ "$name" = "$declared" ] && [ -e "$top/crates/$name/src/lib.rt" ] ||
            [ "$name" = "$target" ]; then
            echo "$name"
        fi
    done <"$top/crates.txt"
}

# Whether no crate has kept work of an earlier build.
is_first() {
    for name in $(crates); do
        [ ! -e "$top/crates/$name/out" ] || return 1
    done
}

# Says what to expect.
announce() {
    say "proving and building $product, since only proved crates are built"
    if is_first; then
        first=yes
        say "the first time, this takes 20 to 30 minutes on two or more processors"
        say "to be proved: $(crates | xargs)"
    else
        first=no
        say "proving what has changed, and the crates above it, takes up to 20 minutes"
    fi
    say "$faster"
}

# Says which crates are left after this one, and in a first build how long they will take, estimated
# from the time since the start.
say_left() {
    left=$(crates | awk -v crate="$1" 'is_after; $0 == crate { is_after = 1 }' | xargs)
    [ -n "$left" ] || return 0
    about=
    if [ "$first" = yes ]; then
        # shellcheck disable=SC2086 # each crate is a word
        rest=$(shares_of $left)
        # shellcheck disable=SC2046
        seconds=$(($2 * rest / ($(shares_of $(crates)) - rest)))
        about=", about $((seconds / 60 + 1)) min"
    fi
    say "left: $left$about"
}

# Reports for each crate how many functions are checked, when it is proved and what is left, from
# the lines that rt prints. Passes all lines on.
report() {
    crate=$target
    begin=$(date +%s)
    start=$begin
    while IFS= read -r line; do
        printf '%s\n' "$line"
        case $line in
        "rt: chose "*" for "*)
            crate=${line##* }
            ;;
        "so far: "*" functions checked"*)
            checked=${line#so far: }
            say "$crate: ${checked%% functions checked*} functions checked"
            ;;
        "logic=proved "*)
            now=$(date +%s)
            say "$crate is proved, after $((now - start)) seconds"
            say_left "$crate" $((now - begin))
            start=$now
            ;;
        esac
    done
}

# Runs a command that proves and builds, and reports how far it is. If it fails, its errors are
# printed, and the script ends with status 2.
prove() {
    log=$(mktemp)
    {
        status=0
        "$@" 2>&1 || status=$?
        echo "status $status"
    } | report >"$log"
    if [ "$(tail -n 1 "$log")" != "status 0" ]; then
        errors=$(grep -E 'error|not proved' "$log" | head -n 40)
        printf '%s\n' "${errors:-$(tail -n 20 "$log")}" >&2
        say "$product could not be built; $log has all that was printed"
        exit 2
    fi
    rm -f "$log"
}
