# A loop that counts down to 0 by a branch that compares with $0.
next:
    lqv $v1[0], 0($1)
    lqv $v2[0], 0($2)
    vadd $v3, $v1, $v2
    addiu $1, $1, 16
    addiu $3, $3, -1
    sqv $v3[0], -16($1)
    bne $3, $0, next
    addiu $2, $2, 16
