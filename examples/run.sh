#!/bin/sh
# sh examples/run.sh [SCRIPT CARD IMAGE [SCHEDULE] [--in FILE] [--out FILE]]
#
# Certifies a script, checks it with its certificate, and runs it beside a simulated card over an image. It prints the most
# commands that a run of the script can send, and the trace. Without words it brings up an SD card of 1,024 blocks.
set -eu
top=$(cd "$(dirname "$0")/.." && pwd)
case $# in
0) set -- "$top/examples/sd_bring_up.sdv" "$top/examples/sd_block.card" new:1024 ;;
1 | 2) echo "usage: sh examples/run.sh [SCRIPT CARD IMAGE [SCHEDULE] [--in FILE] [--out FILE]]" >&2; exit 2 ;;
esac
export PATH="$PATH:/opt/rattle/bin"

sdv="$top/crates/sdv/out/sdv"
if ! [ -x "$sdv" ]; then
    installed=$(command -v sdv) && sdv=$installed || (cd "$top/crates/sdv" && rt run -- frame 0 0) >&2
fi

certificate=$(mktemp)
trap 'rm -f "$certificate"' EXIT
script=$1
shift
"$sdv" certify "$script" > "$certificate"
"$sdv" check "$script" "$certificate"
"$sdv" run "$script" "$certificate" "$@"
