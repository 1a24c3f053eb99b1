#!/bin/sh
# How long a step of a random walk takes with each question that a search asks of a position, in nanoseconds, for a few variants.
# The line `nothing` is the walk alone: take it off the others.
# usage: bench/legal_speed.sh [PLIES]
cd "$(dirname "$0")/../crates/speeds" || exit 1
rt run -- legal "${1:-200000}" 2>/dev/null
