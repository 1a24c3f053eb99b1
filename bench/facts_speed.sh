#!/bin/sh
# Publishes and looks a second of sixteen shards of facts, from one and from four threads, beside those of sixteen hash maps, each behind a
# mutex, all in one run: each line has both numbers and the ratio.
# usage: bench/facts_speed.sh [ROUNDS]
cd "$(dirname "$0")/../crates/speeds" || exit 1
rt run -- facts "${1:-5}" 2>/dev/null | awk '
/a second$/ {
    print $0 ", ratio " sprintf("%.2f", $5 / $7)
    lines++
}
END { exit lines != 4 }'
