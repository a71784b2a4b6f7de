        ori   $1, $0, 3
again:  addiu $1, $1, -1
        mtc2  $1, $v2[2]
        bne   $1, $0, again
        sw    $1, 0x24($0)
        break
