#!/bin/sh
# Writes the image of a blank machine of 2^4 chips of which the wires from chip 0 to chips 1, 2 and 4 are cut: ROOM 1 or 7,
# and the rule, 0 or 1.
printf 'CM1I\2\4%b%b' "\\0${1:-7}" "\\0${2:-0}"   # version 2, dimensions, room, rule
printf '\0\0\0\0\0\0\0\0'                         # no petit cycle so far
printf '\0\3\0\0\0\0\0\1\0\0\2'                   # three wires: each a chip and a dimension, in this order
head -c 560 /dev/zero                             # sixteen chips of 35 bytes
