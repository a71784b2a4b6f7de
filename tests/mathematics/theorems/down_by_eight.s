# A loop that counts down by eight to a number below 1.
again:
    lqv $v1[0], 0($1)
    vmulf $v2, $v1, $v4
    vmacf $v2, $v1, $v5
    addiu $2, $2, -8
    sqv $v2[0], 0($1)
    bgtz $2, again
    addiu $1, $1, 16
