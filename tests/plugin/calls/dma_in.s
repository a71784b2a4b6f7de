# makes a DMA into DMEM or IMEM: the words of its registers are in DMEM from f00 on
        lw    $1, 0xf00($0)
        mtc0  $1, $c0
        lw    $2, 0xf04($0)
        mtc0  $2, $c1
        lw    $3, 0xf08($0)
        mtc0  $3, $c2
        break
