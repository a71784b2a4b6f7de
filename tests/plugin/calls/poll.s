# waits for the semaphore; the read is in the delay slot of its branch
        addiu $2, $0, 1
wait:   bne   $2, $0, wait
        mfc0  $2, $c7
        sw    $2, 0($0)
        addiu $3, $0, 7
        sw    $3, 4($0)
        break
