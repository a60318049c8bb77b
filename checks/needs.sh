#!/usr/bin/env bash
# What the checks need beside the Rattle kit, and how a Debian machine gets it.
#
#   bash checks/needs.sh                     says which of it is missing
#   bash checks/needs.sh --install           gets what is missing by apt-get, then says what still is
#   bash checks/needs.sh --install --light   leaves out what only the report and the benchmark use
#
# The status is 0 in any case: a check whose need isn't there is skipped and says so. No network, no
# right to install and no package registry are no failures, and are said in one line.
set -u

# A package, what is there once it is installed (a command, a module of python3 or a file), and what
# uses it. The last ones are large.
needs='
tcpdump             tcpdump               captures that are read and written by another program
wireshark-common    editcap               pcapng that another program writes
tshark              tshark                times and lengths by another program
gcc                 cc                    refused memory, interrupted calls, examples/walk.c
libc6-dev           /usr/include/stdio.h  the same
python3             python3               the second program and the tools
python3-pytest      python3:pytest        all checks
python3-hypothesis  python3:hypothesis    small runs at random that shrink
python3-pytest-xdist python3:xdist        checks on all processors
flake8              flake8                the style of the Python files
iproute2            ip                    rings of running programs
tcpreplay           tcpreplay             captures that are sent by another program
librsvg2-bin        rsvg-convert          pictures as PNG
groff               groff                 man pages
mandoc              mandoc                man pages
'
large='
chromium            chromium              the report as a page
valgrind            valgrind              instructions in the benchmark
'

is_there() {
    case $1 in
    /*) [ -e "$1" ] ;;
    python3:*)
        python3 -c "import ${1#*:}" 2>/dev/null ||
            /usr/bin/python3 -c "import ${1#*:}" 2>/dev/null
        ;;
    *) command -v "$1" >/dev/null ;;
    esac
}

# The packages that are missing, in one line.
missing() {
    local package probe rest
    while read -r package probe rest; do
        [ -z "$package" ] || is_there "$probe" || echo "$package"
    done <<<"$needs" | tr '\n' ' '
}

# Gets packages. What stops it is said in one line.
install() {
    local front=()
    if ! command -v apt-get >/dev/null; then
        echo "needs.sh: nothing was installed: there is no apt-get here"
        return
    fi
    if [ "$(id -u)" -ne 0 ]; then
        front=(sudo -n)
        if ! sudo -n true 2>/dev/null; then
            echo "needs.sh: nothing was installed: there is no right to install here"
            return
        fi
    fi
    front+=(
        env DEBIAN_FRONTEND=noninteractive
        apt-get -qq -o Acquire::Retries=1 -o Acquire::http::Timeout=20
    )
    "${front[@]}" update >/dev/null 2>&1 || true
    if ! "${front[@]}" install -y --no-install-recommends "$@" >/dev/null 2>&1; then
        # One package that the registry lacks keeps none of the others.
        local package
        for package; do
            "${front[@]}" install -y --no-install-recommends "$package" >/dev/null 2>&1 ||
                echo "needs.sh: $package wasn't installed: apt-get can't get it"
        done
    fi
}

does_install=no
is_light=no
for word; do
    case $word in
    --install) does_install=yes ;;
    --light) is_light=yes ;;
    *)
        echo "usage: bash checks/needs.sh [--install] [--light]" >&2
        exit 2
        ;;
    esac
done
[ "$is_light" = yes ] || needs=$needs$large
read -r -a wanted <<<"$(missing)"
if [ "$does_install" = yes ] && [ "${#wanted[@]}" -gt 0 ]; then
    install "${wanted[@]}"
    read -r -a wanted <<<"$(missing)"
fi
if [ "${#wanted[@]}" -gt 0 ]; then
    echo "needs.sh: missing here: ${wanted[*]}"
else
    echo "needs.sh: all that the checks need is here"
fi
