# three turns of a loop: 4000 times 0008 by 65536 is 2 in each lane. The product is stored in the delay slot of the branch, at 01c
        addiu $2, $0, 3
loop:   lqv   $v1[0], 0($0)
        lqv   $v2[0], 16($0)
        vmudm $v3, $v1, $v2
        addiu $2, $2, -1
        vmudm $v3, $v1, $v2
        bne   $2, $0, loop
        sqv   $v3[0], 32($0)
        break
