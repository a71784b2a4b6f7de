# A routine that returns.
    lqv $v1[0], 0($4)
    addiu $4, $4, 16
    vmudh $v2, $v1, $v3[0]
    jr $31
    sqv $v2[0], 0($4)
