#!/bin/sh
# A page of 90,002 nodes whose last node is changed 600,000 times: a page that walked its nodes to find one by its serial would
# visit some 5 * 10^10 of them. Makes the script (42 MB), has `inspect replay` carry it out, compares what is printed, and prints
# the time that it took. Run it as: sh examples/many-acts.sh PATH-OF-THE-PROGRAM
set -eu
program=$1
dir=$(mktemp -d)
trap 'rm -rf "$dir"' EXIT
awk 'BEGIN {
    printf "{\"load\":{\"document\":[{\"e\":\"html\",\"c\":["
    for (i = 1; i < 90000; i++) printf "{\"e\":\"p\"},"
    print "{\"e\":\"p\"}]}]}}"
    for (i = 0; i < 600000; i++) print "{\"act\":{\"do\":\"setAttr\",\"node\":90002,\"name\":\"a\",\"value\":\"b\"}}"
}' >"$dir/script"
printf '# end\nno document\n' >"$dir/wanted"
begun=$(date +%s)
"$program" replay <"$dir/script" >"$dir/written"
ended=$(date +%s)
cmp "$dir/written" "$dir/wanted"
echo "as wanted, in $((ended - begun)) seconds"
