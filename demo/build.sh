#!/bin/sh
# sh demo/build.sh: proves the crates that ringtap and ringsize stand on, builds the two, and makes
# links to them in bin/. The first time takes about 25 minutes on four processors; where nothing has
# changed since, it takes a few seconds.
set -eu
cd "$(dirname "$0")/.."
if ! command -v rt >/dev/null; then
    echo "demo/build.sh: rt, the command of the Rattle kit, isn't here" >&2
    exit 1
fi

# The crates that the programs stand on, lowest first, as crates.txt has them.
needed() {
    awk -F: '
        function walk(name, i, count, names) {
            if (seen[name]++) return
            count = split(below[name], names, " ")
            for (i = 1; i <= count; i++) if (names[i] in below) walk(names[i])
            if (name != "ringtap" && name != "ringsize") print name
        }
        !/^ *(#|$)/ { split($1, head, " "); below[head[1]] = $2 }
        END { walk("ringtap"); walk("ringsize") }
    ' crates.txt
}

# One line of how far it is: libraries that are proved, what is being proved, the minutes so far.
progress() {
    proved=0
    now=
    for crate in $crates; do
        if [ -e "crates/$crate/out/rlib/stamp" ]; then
            proved=$((proved + 1))
        elif [ -d "crates/$crate/out/rlib" ]; then
            now=", now $crate"
        fi
    done
    [ "$proved" -lt "$count" ] || now=", now the programs"
    echo "$proved of $count libraries are proved$now; $((($(date +%s) - started) / 60)) min so far"
}

# On a terminal the line is written anew every two seconds, else where another crate begins.
show_progress() {
    last=
    while kill -0 "$1" 2>/dev/null; do
        line=$(progress)
        if [ -t 2 ]; then
            printf '\r\033[K%s' "$line" >&2
        elif [ "${line%%;*}" != "$last" ]; then
            echo "$line" >&2
        fi
        last=${line%%;*}
        sleep 2
    done
    [ ! -t 2 ] || printf '\r\033[K' >&2
}

# Builds a program. `rt run` runs what it built, and here with words that name no file: status 5 is
# the program's own.
build() {
    program=$1
    shift
    folder=crates/$program
    log=$folder/out/build.log
    mkdir -p "$folder/out" bin
    (cd "$folder" && exec rt run -- "$@") >"$log" 2>&1 &
    building=$!
    trap 'kill "$building" 2>/dev/null; exit 130' INT TERM
    show_progress "$building"
    status=0
    wait "$building" || status=$?
    if [ "$status" -ne 5 ]; then
        tail -n 20 "$log" >&2
        echo "$program wasn't built: $log has the whole story" >&2
        exit 1
    fi
    ln -sf "../$folder/out/$program" "bin/$program"
    echo "built: bin/$program" >&2
}

crates=$(needed)
count=$(echo "$crates" | wc -l)
started=$(date +%s)
build ringtap replay no-setup no-schedule
build ringsize no-setup no-reader
