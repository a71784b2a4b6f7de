# A routine that waits for a transfer, with code before the wait and after it.
    lqv $v1[0], 0($1)
    addiu $5, $5, 1
busy:
    mfc0 $4, $c6
    bne $4, $0, busy
    vadd $v2, $v1, $v1
    sqv $v2[0], 0($1)
    jr $31
    nop
