#!/bin/sh
# sh demo/keep_inputs.sh SETUP [SCHEDULE]: ends with status 1 where a file that ringtap may save with this setup, by whatever command, for
# any of 8 members and with or without a dump, would take the place of one that it reads: the setup, the schedule, a capture, the filter or
# the moments, by name or by a link. ringtap itself lets an output take the place of any file.
set -euf
inputs=$*
prefix=out
while read -r word value _; do
    case $word in
    cpu | filter | ticks) inputs="$inputs $value" ;;
    out) prefix=$value ;;
    esac
done <<LINES
$(tr -d '\r' <"$1")
LINES
status=0
outputs=$prefix.tx.pcap
for member in 0 1 2 3 4 5 6 7; do
    outputs="$outputs $prefix.$member.pcap $prefix.$member.blk $prefix.$member.tx.pcap"
done
for output in $outputs; do
    for input in $inputs; do
        if [ "$output" -ef "$input" ]; then
            echo "$output would take the place of $input, which is read: choose another prefix in the line 'out' of $1"
            status=1
        fi
    done
done
exit "$status"
