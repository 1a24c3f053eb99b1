#!/bin/sh
# Calls a second of the ticket lock from one, two and four threads, and each as a share of the first, all in one run.
# usage: bench/lock_speed.sh [CALLS]
cd "$(dirname "$0")/../crates/speeds" || exit 1
rt run -- lock "${1:-4000000}" 2>/dev/null | awk '
/calls a second$/ {
    if ($1 == 1) one = $3
    printf "%s threads %12s calls a second  %5.2f of one thread\n", $1, $3, $3 / one
}
END { exit !one }'
