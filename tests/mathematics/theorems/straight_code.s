# Code without branches, with each variant of an instruction that a piece may hold.
    lqv $v1[0], 0($2)
    lqv $v2[0], 16($2)
    vmulf $v3, $v1, $v2
    vmacf $v3, $v1, $v2[3]
    vmacf $v4, $v3, $v2
    sqv $v3[0], 32($2)
    sll $4, $4, 2
    sllv $5, $4, $3
    addu $2, $4, $5
    addiu $6, $6, -16
    lui $7, 0x40
    lw $8, 4($6)
    sh $8, 2($6)
    mfc0 $9, $c4
    mfc2 $10, $v3[2]
    mtc2 $10, $v5[4]
    cfc2 $11, $vco
    ctc2 $11, $vce
    vrndp $v6, $v0, $v2
    vmulq $v6, $v1, $v2
    vadd $v7, $v6, $v5[v]
    vlt $v7, $v6, $v5[1q]
    vch $v8, $v7, $v6
    vmrg $v8, $v7, $v6
    vand $v9, $v8, $v7
    vsar $v10, $v10, $v10[0]
    vrcph $v11[2], $v9[1]
    vmov $v11[3], $v9[5]
    vnop
    ltv $v16[2], 0($6)
    sdv $v8[8], 8($6)
    sqv $v8[0], 48($2)
