#!/bin/sh
# sh demo/run.sh [NAME]: runs ringtap on a setup of this folder, and shows what came out.
# NAME is setup, a replay whose ring keeps every frame; small, one whose ring is too small for them; group, one with two CPUs
# and three members, a filter and a dump; make, whose frames are made from a number; send, a capture that is sent through a
# transmit ring; or capture, two CPUs that are fed on threads.
#
# Where demo/build.sh has built the program, that runs. Else `rt try` compiles it unproved, which takes about a minute. The C library is told
# nothing of large pages, by which tools/run.py makes runs of large captures faster: on captures as small as these a run would take longer.
set -eu
cd "$(dirname "$0")/.."
name=${1:-setup}
command=$name
schedule=
case $name in
setup | small)
    command=replay
    schedule=demo/schedule.txt
    output=out.0.pcap
    ;;
group)
    command=replay
    schedule=demo/group.sched
    output=group.1.pcap
    ;;
make) output=made.0.pcap ;;
send) output=lo.tx.pcap ;;
capture) output=two.0.pcap ;;
*)
    echo "usage: sh demo/run.sh [setup|small|group|make|send|capture]" >&2
    exit 1
    ;;
esac
setup=demo/$name.txt

# Runs the program that was built and proved.
run_proved() {
    newer=$(find crates -name '*.rt' -newer "$(readlink -f bin/ringtap)" | head -n 1)
    [ -z "$newer" ] || echo "$newer is newer than the program: \`sh demo/build.sh\` builds it anew" >&2
    lines=$(bin/ringtap "$command" "$setup" ${schedule:+"$schedule"}) || { status=$?; echo "$lines"; exit "$status"; }
}

# The seconds so far, on a terminal, until a process ends.
show_seconds() {
    seconds=0
    while kill -0 "$1" 2>/dev/null; do
        [ ! -t 2 ] || printf '\rcompiling: %s s' "$seconds" >&2
        sleep 1
        seconds=$((seconds + 1))
    done
    [ ! -t 2 ] || printf '\r\033[K' >&2
}

# Compiles the program and runs it unproved, in a folder of its own, which the setup names wherever it names a file.
run_unproved() {
    if ! command -v rt >/dev/null; then
        echo "demo/run.sh: rt, the command of the Rattle kit, isn't here" >&2
        exit 1
    fi
    echo "unproved try, about a minute; \`sh demo/build.sh\` builds the proved program, about 25 minutes" >&2
    room=$(mktemp -d)
    trap 'rm -rf "$room"' EXIT
    cp -R demo "$room/demo"
    grep -q '^out ' "$setup" || echo 'out out' >>"$room/$setup"
    sed -i -e '/^#/!s|demo/|'"$room"'/demo/|' -e 's|^out |out '"$room"'/|' "$room/$setup"
    (cd crates/ringtap && exec rt try --seconds 60 -- "$command" "$room/$setup" ${schedule:+"$room/$schedule"}) \
        >"$room/lines.txt" 2>"$room/said.txt" &
    trying=$!
    trap 'kill "$trying" 2>/dev/null; exit 130' INT TERM
    show_seconds "$trying"
    status=0
    wait "$trying" || status=$?
    lines=$(cat "$room/lines.txt")
    if [ "$status" -ne 0 ]; then
        echo "$lines"
        cat "$room/said.txt" >&2
        exit "$status"
    fi
    mv "$room/${output%%.*}".* .
}

# An output takes the place of whatever has its name, so none may be a file that is read.
sh demo/keep_inputs.sh "$setup" ${schedule:+"$schedule"}
if [ -x bin/ringtap ]; then
    run_proved
else
    run_unproved
fi
if command -v tcpdump >/dev/null; then
    echo "tcpdump -nqr $output | head -n 5"
    tcpdump -nqr "$output" 2>/dev/null | head -n 5
else
    ls -l "$output"
fi
echo
echo "ringtap $command $setup $schedule"
echo "$lines"
