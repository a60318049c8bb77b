#!/usr/bin/env bash
# bash checks/run.sh [WORDS ..]: runs the checks, with words for pytest, as `-k lost` or a file of
# checks/.
#
# The interpreter is python3 where it has pytest, or else Debian's, /usr/bin/python3. Where neither
# has it, each part of the checks is said to be skipped. A program that isn't there is built.
set -u
cd "$(dirname "${BASH_SOURCE[0]}")/.." || exit 2
interpreter=
for python in python3 /usr/bin/python3; do
    if [ -z "$interpreter" ] && "$python" -c 'import pytest' 2>/dev/null; then
        interpreter=$python
    fi
done
if [ -z "$interpreter" ]; then
    for part in checks/*/__init__.py; do
        echo "skipped: ${part%/*} needs python3-pytest (checks/needs.sh)"
    done
    echo "checks: 0 passed, 0 failed, all skipped"
    exit 0
fi
"$interpreter" -c 'import sys; print("the checks run by", sys.executable, sys.version.split()[0])'
if [ -z "${RINGTAP:-}" ] &&
    { [ ! -x crates/ringtap/out/ringtap ] || [ ! -x crates/ringsize/out/ringsize ]; }; then
    sh demo/build.sh || exit 1
fi
workers=()
if "$interpreter" -c 'import xdist' 2>/dev/null; then
    workers=(-n "$(nproc)" --dist loadgroup)
fi
exec "$interpreter" -B -m pytest -q --tb=short "${workers[@]}" "$@"
