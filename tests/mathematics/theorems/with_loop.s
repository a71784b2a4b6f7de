# A routine with a loop that counts down.
    vmrg $v3, $v3, $v3
    lqv $v4[0], 0($6)
apart:
    lqv $v1[0], 0($1)
    addiu $1, $1, 16
    vsub $v3, $v1, $v4
    sqv $v3[0], 0($3)
    addiu $4, $4, -16
    bgtz $4, apart
    addiu $3, $3, 16
    sqv $v4[0], 0($5)
    jr $31
    nop
