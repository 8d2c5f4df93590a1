#!/usr/bin/env bash
# Times the built program on large texts: seconds, and the most memory in KiB. Build it first: (cd crates/atpg && rt run -- plan < ../../examples/one_box.net)
set -euo pipefail
cd "$(dirname "$0")/.."
program=crates/atpg/out/atpg
mkdir -p bench/data
for case in "comments 16" "comments 32" "comments 63" "rules 8192" "rules 16384" "rules 32768" "rules 65536" "ports 4096" "ports 8192" "ports 16384"; do
    file="bench/data/${case// /_}.net"
    [ -f "$file" ] || python3 bench/generate.py $case > "$file"
    /usr/bin/time -f "$case: %e s, %M KiB, $(stat -c %s "$file") bytes" "$program" plan < "$file" > /dev/null
done
