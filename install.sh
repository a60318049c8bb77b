#!/bin/sh
# sh install.sh PREFIX: puts the programs, the tools, their man pages, completion for bash, and the
# documents with the demo and the examples below a folder, as /usr/local.
#
# The programs are bin/ringtap and bin/ringsize, which demo/build.sh builds, or those that RINGTAP
# and RINGSIZE name; ringsize goes along where it is there. The tools need python3, and run from any
# folder: ringtap-size, ringtap-lost and so on, in PREFIX/bin, are links to the files in
# PREFIX/lib/ringtap. The documents lie in PREFIX/share/doc/ringtap as in the repository, with all
# that they link to.
set -eu
if [ $# -ne 1 ] || [ -z "$1" ]; then
    echo "usage: sh install.sh PREFIX" >&2
    exit 1
fi
here=$(cd "$(dirname "$0")" && pwd)
program=${RINGTAP:-$here/bin/ringtap}
sizer=${RINGSIZE:-$here/bin/ringsize}
if [ ! -x "$program" ]; then
    echo "install.sh: $program isn't there: \`sh demo/build.sh\` builds it," \
        "and RINGTAP names another" >&2
    exit 1
fi
if ! command -v python3 >/dev/null; then
    echo "install.sh: python3, by which the tools run, isn't here" >&2
    exit 1
fi
mkdir -p "$1"
prefix=$(cd "$1" && pwd)
library=$prefix/lib/ringtap
documents=$prefix/share/doc/ringtap
completions=$prefix/share/bash-completion/completions
mkdir -p "$prefix/bin" "$library/ringtap_tools" "$documents" "$prefix/share/man/man1" "$completions"

# Puts files into a folder; one that is there is replaced, whoever runs it.
put() {
    mode=$1
    folder=$2
    shift 2
    for file; do
        rm -f "$folder/${file##*/}"
        cp "$file" "$folder/${file##*/}"
        chmod "$mode" "$folder/${file##*/}"
    done
}

put 755 "$prefix/bin" "$program"
if [ "${program##*/}" != ringtap ]; then
    mv "$prefix/bin/${program##*/}" "$prefix/bin/ringtap"
fi
programs=bin/ringtap
if [ -x "$sizer" ]; then
    programs="$programs, bin/ringsize"
    put 755 "$prefix/bin" "$sizer"
    put 644 "$prefix/share/man/man1" "$here/docs/ringsize.1"
    echo "complete -o default ringsize" >"$completions/ringsize"
fi
put 644 "$library" "$here"/tools/*.py
put 644 "$library/ringtap_tools" "$here"/tools/ringtap_tools/*.py
rm -f "$library/make_man.py" "$library/ringtap_tools/make_man.py"
cp "$here/tools/ringtap.bash" "$completions/ringtap"
python3 -B "$here/tools/make_man.py" --into "$prefix/share/man/man1"
python3 -B "$here/tools/make_man.py" --names | while read -r file name; do
    chmod 755 "$library/$file"
    ln -sf "../lib/ringtap/$file" "$prefix/bin/$name"
    # The options of a tool are those that its help names.
    options=$(
        python3 -B "$library/$file" --help | grep -oE -- '(^|[ ,[])--?[a-z][a-z0-9-]*' |
            tr -d ' ,[' | sort -u | tr '\n' ' '
    )
    echo "complete -o default -W '$options' $name" >"$completions/$name"
done

# The documents, and what they link to, and what that links to.
python3 -B - "$here" "$documents" <<'PYTHON'
import re
import shutil
import sys
from pathlib import Path

here, documents = map(Path, sys.argv[1:])
waiting = [here / name for name in ("README.md", "CONTRIBUTING.md", "CHANGELOG.md")]
waiting += [path for folder in ("docs", "examples", "demo") for path in (here / folder).rglob("*")]
seen = set()
while waiting:
    path = waiting.pop()
    if path in seen or not path.is_file() or "__pycache__" in path.parts or path.suffix == ".1":
        continue
    seen.add(path)
    copy = documents / path.relative_to(here)
    copy.parent.mkdir(parents=True, exist_ok=True)
    copy.unlink(missing_ok=True)
    shutil.copyfile(path, copy)
    if path.suffix == ".md":
        links = re.findall(r"\]\(([^)#:\s]+)[)#]", path.read_text(encoding="utf-8"))
        waiting += [(path.parent / link).resolve() for link in links]
PYTHON
cat >"$documents/copyright" <<'END'
ringtap: no licence is given yet; its owner has to choose one. This is to try and not to pass on.
END
tools=$(find "$prefix/bin" -name 'ringtap-*' | wc -l)
echo "installed in $prefix: $programs and $tools tools"
