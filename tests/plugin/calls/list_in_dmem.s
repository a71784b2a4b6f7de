# gives the RDP a list in DMEM
        lui   $1, 0x2700
        sw    $1, 8($0)
        addiu $2, $0, 8
        mtc0  $2, $c8
        addiu $3, $0, 16
        mtc0  $3, $c9
        break
