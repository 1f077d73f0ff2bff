# Makes commands of a drawing, eight lines of eight signs: a 1 into memory bit 0 of the processor where a # stands.
{
    y = NR - 1
    for (x = 0; x < 8; x++)
        if (substr($0, x + 1, 1) == "#")
            print "poke", 2 * int(y / 4) + int(x / 4), 4 * (y % 4) + x % 4, 0, 1
}
