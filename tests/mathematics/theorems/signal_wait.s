# A wait for a signal, which the main processor sets.
wait:
    mfc0 $2, $c4
    andi $3, $2, 0x80
    beq $0, $3, wait
    nop
