# writes and reads DPC_STATUS
        addiu $1, $0, 0x276
        mtc0  $1, $c11
        mfc0  $2, $c11
        sw    $2, 0($0)
        break
