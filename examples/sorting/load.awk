# Makes commands of eight lines of eight numbers below 64: each into memory bits 0 to 5 of its processor.
{
    y = NR - 1
    for (x = 0; x < 8; x++) {
        number = $(x + 1)
        for (bit = 0; bit < 6; bit++) {
            if (number % 2)
                print "poke", 2 * int(y / 4) + int(x / 4), 4 * (y % 4) + x % 4, bit, 1
            number = int(number / 2)
        }
    }
}
