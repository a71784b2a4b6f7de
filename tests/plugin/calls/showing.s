# stores what an instruction in place of the nop changes; $v1 is 8000 in all lanes, $v2 other numbers in each, $2 -1
        addiu $2, $0, -1
        lqv   $v1[0], 0($0)
        lqv   $v2[0], 16($0)
        nop
        vsar  $v6, $v6, $v6[2]
        sqv   $v4[0], 128($0)
        sqv   $v5[0], 144($0)
        sqv   $v6[0], 160($0)
        sw    $4, 176($0)
        sw    $31, 180($0)
        break
