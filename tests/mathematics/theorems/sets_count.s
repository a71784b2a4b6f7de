# Code that sets what the loop counts, and no code after the loop.
    ori $4, $0, 8
again:
    addiu $4, $4, -1
    bne $4, $0, again
    vadd $v1, $v1, $v2
