# copies the first words of IMEM to RDRAM
        addiu $1, $0, 0x1000
        mtc0  $1, $c0
        addiu $3, $0, 7
        mtc0  $3, $c3
        break
