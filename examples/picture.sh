#!/bin/sh
# Draws where a White piece goes on a board of 8 by 8 squares, from what `vengine reach` says.
#
# Usage: examples/picture.sh WORD SQUARE [OWN [ENEMY]]      as for `reach`; VENGINE=FILE names another program
#
# @ is the piece, o an empty square that it reaches, x an enemy that it takes, P an own piece and p an enemy that it does not take.
vengine=${VENGINE:-$(dirname "$0")/../vengine}
"$vengine" reach "$@" | awk -v at="$2" -v own="$3" -v enemy="$4" '
    function set(list, sign,    count, part, i) {
        count = split(list, part, ",")
        for (i = 1; i <= count; i++) mark[part[i]] = sign
    }
    BEGIN { set(own, "P"); set(enemy, "p"); mark[at] = "@" }
    $1 == "quiet" { for (i = 2; i <= NF; i++) mark[$i] = "o" }
    $1 == "take" { for (i = 2; i <= NF; i++) mark[$i] = "x" }
    $1 == "error" { print; failed = 1 }
    END {
        if (failed) exit 3
        for (rank = 8; rank >= 1; rank--) {
            line = rank " "
            for (file = 1; file <= 8; file++) {
                name = substr("abcdefgh", file, 1) rank
                line = line " " (name in mark ? mark[name] : ".")
            }
            print line
        }
        print "   a b c d e f g h"
    }'
