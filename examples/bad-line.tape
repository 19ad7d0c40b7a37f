# The third line is no line of a tape.
c 0111800500000000
c 0
c 0111800500000000
