"""Prints the numbers 1 to 65,536 for 256 by 256 processors, row by row, as they stand on a spiral that begins in the
middle.
"""
board = [[0] * 256 for _ in range(256)]
row, column, down, right, number, side = 128, 127, 0, 1, 1, 1
while number <= 65536:
    for _ in range(2):                      # two sides of one length, then two that are longer
        for _ in range(side):
            if 0 <= row < 256 and 0 <= column < 256:
                board[row][column] = number
            row, column, number = row + down, column + right, number + 1
        down, right = -right, down          # to the left
    side += 1
print("\n".join(" ".join(map(str, line)) for line in board))
