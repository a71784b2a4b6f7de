# Code that waits until a signal is clear, between stores.
    sqv $v1[0], 0($1)
wait:
    mfc0 $2, $c4
    andi $2, $2, 0x100
    bne $2, $0, wait
    addiu $3, $3, 1
    lqv $v2[0], 16($1)
