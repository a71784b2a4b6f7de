# waits for the semaphore, which the CPU holds at first; adds 5 to what the CPU has stored; gives the semaphore back
wait:   mfc0  $1, $c7
        bne   $1, $0, wait
        nop
        lw    $2, 0($0)
        addiu $2, $2, 5
        sw    $2, 4($0)
        mtc0  $0, $c7
        break
