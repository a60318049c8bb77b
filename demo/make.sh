#!/bin/sh
# Makes the capture of this folder anew: ICMP, DNS and TCP traffic on the loopback device, made on the spot, as
# tcpdump captures it. It wants Linux, tcpdump, ping, python3, and the right to capture. What ringtap makes of it is
# in expected/, which `python3 checks/second_program.py` makes anew.
set -eu
cd "$(dirname "$0")"
log=$(mktemp)
dump=
# Wherever it ends, tcpdump ends with it.
trap '[ -z "$dump" ] || kill "$dump" 2>/dev/null || true; rm -f "$log"' EXIT
trap 'exit 130' INT TERM
tcpdump -i lo -w lo.pcap --time-stamp-precision=micro -U -n \
    'ip host 127.0.0.1 and (icmp or udp port 53 or tcp port 8080)' 2>"$log" &
dump=$!
until grep -q 'listening on' "$log"; do
    if ! kill -0 "$dump" 2>/dev/null; then
        dump=
        cat "$log" >&2
        exit 1
    fi
    sleep 0.1
done
ping -q -n -c 4 -i 0.2 127.0.0.1 >/dev/null
python3 traffic.py
ping -q -n -c 2 -i 0.2 -s 1200 127.0.0.1 >/dev/null
sleep 1
kill -INT "$dump"
wait "$dump" || true
dump=
cat "$log"
