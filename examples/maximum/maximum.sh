#!/bin/bash
# The front end of the example: it looks at the global wire for one bit of the numbers after another, from the top,
# and what the wire tells decides what it sends next. It wants cm1 and cm1lab on the path.
here=$(dirname "$0")
work=$(mktemp -d)
trap 'rm -r "$work"' EXIT

# The numbers: the session of this folder, up to its first look.
cm1 fresh 2 7 "$work/machine"
sed '/^wire on/,$d' "$here/commands.txt" | cm1 run "$work/machine" "$here/program.txt" --out "$work/machine" > /dev/null

# The machine, which does what is sent line by line.
coproc cm1lab front "$work/machine"

# Sends a line, and waits for its answer.
send() {
    echo "$1" >&"${COPROC[1]}"
    read -r answer <&"${COPROC[0]}"
}

maximum=0
for bit in 7 6 5 4 3 2 1 0; do
    # GLOBAL := that bit, of those that may be the largest
    send "nano $bit $bit 0 9 8 0 0xf0 0xa0 n"
    send sense
    wire=${answer#wire }
    echo "bit $bit: the wire is $wire"
    if [ "$wire" = 1 ]; then
        # flag 0 := flag 0 and that bit
        send "nano $bit $bit 0 0 8 0 0xf0 0xa0 n"
    fi
    maximum=$((2 * maximum + wire))
done
echo "the largest number is $maximum"
