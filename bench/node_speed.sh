#!/bin/sh
# What each question that a search asks of a position costs, in instructions for a position of a random walk in chess, beside the walk itself,
# which has the program's start and its tables in it. Needs valgrind; without a count it ends with an error. usage: bench/node_speed.sh [PLIES]
cd "$(dirname "$0")/../crates/speeds" || exit 1
plies="${1:-20000}"
rt run >/dev/null 2>&1 || exit 1
count() {
    valgrind --tool=callgrind --callgrind-out-file=/dev/null out/speeds legal "$plies" "$1" 2>&1 >/dev/null | sed -n 's/.*Collected : //p' | grep .
}
walk="$(count nothing)" || { echo "no count: is valgrind there?" >&2; exit 1; }
echo "nothing: $((walk / plies)) instructions, the walk itself"
for question in after anew key known legal captures others any resting resting-apart count end; do
    asked="$(count "$question")" || exit 1
    echo "$question: $(((asked - walk) / plies)) instructions"
done
