#!/bin/sh
# Packs each example, plays it with the rehearsal program and compares what that writes with the expected report.
#     examples/run.sh target/bin/rehearse
set -eu
if [ $# -ne 1 ] || [ ! -x "$1" ]; then
    echo "usage: $0 REHEARSE (the path of the rehearsal program)" >&2
    exit 2
fi
rehearse=$1
examples=$(dirname "$0")
"$examples/../tools/need" python3
status=0
for text in "$examples"/*.txt; do
    name=$(basename "$text" .txt)
    if python3 "$examples/../tools/steps.py" pack "$text" | "$rehearse" | diff "$examples/$name.report" -; then
        echo "$name: as expected"
    else
        echo "$name: differs"
        status=1
    fi
done
exit $status
