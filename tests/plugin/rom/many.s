# 20 DMA of 8 bytes each, in and out in turn, with little between them; 0xff0 says how often
        lw    $20, 0xff0($0)
loop:   nop
        addiu $1, $0, 512
        mtc0  $1, $c0
        lw    $2, 0xff4($0)
        addiu $2, $2, 0
        mtc0  $2, $c1
        addiu $3, $0, 7
        mtc0  $3, $c2
        lw    $4, 512($0)
        addiu $4, $4, 0
        sw    $4, 520($0)
        addiu $1, $0, 520
        mtc0  $1, $c0
        lw    $2, 0xff4($0)
        addiu $2, $2, 8
        mtc0  $2, $c1
        addiu $3, $0, 7
        mtc0  $3, $c3
        lw    $4, 520($0)
        addiu $4, $4, 1
        sw    $4, 528($0)
        addiu $1, $0, 528
        mtc0  $1, $c0
        lw    $2, 0xff4($0)
        addiu $2, $2, 16
        mtc0  $2, $c1
        addiu $3, $0, 7
        mtc0  $3, $c2
        lw    $4, 528($0)
        addiu $4, $4, 2
        sw    $4, 536($0)
        addiu $1, $0, 536
        mtc0  $1, $c0
        lw    $2, 0xff4($0)
        addiu $2, $2, 24
        mtc0  $2, $c1
        addiu $3, $0, 7
        mtc0  $3, $c3
        lw    $4, 536($0)
        addiu $4, $4, 3
        sw    $4, 544($0)
        addiu $1, $0, 544
        mtc0  $1, $c0
        lw    $2, 0xff4($0)
        addiu $2, $2, 32
        mtc0  $2, $c1
        addiu $3, $0, 7
        mtc0  $3, $c2
        lw    $4, 544($0)
        addiu $4, $4, 4
        sw    $4, 552($0)
        addiu $1, $0, 552
        mtc0  $1, $c0
        lw    $2, 0xff4($0)
        addiu $2, $2, 40
        mtc0  $2, $c1
        addiu $3, $0, 7
        mtc0  $3, $c3
        lw    $4, 552($0)
        addiu $4, $4, 5
        sw    $4, 560($0)
        addiu $1, $0, 560
        mtc0  $1, $c0
        lw    $2, 0xff4($0)
        addiu $2, $2, 48
        mtc0  $2, $c1
        addiu $3, $0, 7
        mtc0  $3, $c2
        lw    $4, 560($0)
        addiu $4, $4, 6
        sw    $4, 568($0)
        addiu $1, $0, 568
        mtc0  $1, $c0
        lw    $2, 0xff4($0)
        addiu $2, $2, 56
        mtc0  $2, $c1
        addiu $3, $0, 7
        mtc0  $3, $c3
        lw    $4, 568($0)
        addiu $4, $4, 7
        sw    $4, 576($0)
        addiu $1, $0, 576
        mtc0  $1, $c0
        lw    $2, 0xff4($0)
        addiu $2, $2, 64
        mtc0  $2, $c1
        addiu $3, $0, 7
        mtc0  $3, $c2
        lw    $4, 576($0)
        addiu $4, $4, 8
        sw    $4, 584($0)
        addiu $1, $0, 584
        mtc0  $1, $c0
        lw    $2, 0xff4($0)
        addiu $2, $2, 72
        mtc0  $2, $c1
        addiu $3, $0, 7
        mtc0  $3, $c3
        lw    $4, 584($0)
        addiu $4, $4, 9
        sw    $4, 592($0)
        addiu $1, $0, 592
        mtc0  $1, $c0
        lw    $2, 0xff4($0)
        addiu $2, $2, 80
        mtc0  $2, $c1
        addiu $3, $0, 7
        mtc0  $3, $c2
        lw    $4, 592($0)
        addiu $4, $4, 10
        sw    $4, 600($0)
        addiu $1, $0, 600
        mtc0  $1, $c0
        lw    $2, 0xff4($0)
        addiu $2, $2, 88
        mtc0  $2, $c1
        addiu $3, $0, 7
        mtc0  $3, $c3
        lw    $4, 600($0)
        addiu $4, $4, 11
        sw    $4, 608($0)
        addiu $1, $0, 608
        mtc0  $1, $c0
        lw    $2, 0xff4($0)
        addiu $2, $2, 96
        mtc0  $2, $c1
        addiu $3, $0, 7
        mtc0  $3, $c2
        lw    $4, 608($0)
        addiu $4, $4, 12
        sw    $4, 616($0)
        addiu $1, $0, 616
        mtc0  $1, $c0
        lw    $2, 0xff4($0)
        addiu $2, $2, 104
        mtc0  $2, $c1
        addiu $3, $0, 7
        mtc0  $3, $c3
        lw    $4, 616($0)
        addiu $4, $4, 13
        sw    $4, 624($0)
        addiu $1, $0, 624
        mtc0  $1, $c0
        lw    $2, 0xff4($0)
        addiu $2, $2, 112
        mtc0  $2, $c1
        addiu $3, $0, 7
        mtc0  $3, $c2
        lw    $4, 624($0)
        addiu $4, $4, 14
        sw    $4, 632($0)
        addiu $1, $0, 632
        mtc0  $1, $c0
        lw    $2, 0xff4($0)
        addiu $2, $2, 120
        mtc0  $2, $c1
        addiu $3, $0, 7
        mtc0  $3, $c3
        lw    $4, 632($0)
        addiu $4, $4, 15
        sw    $4, 640($0)
        addiu $1, $0, 640
        mtc0  $1, $c0
        lw    $2, 0xff4($0)
        addiu $2, $2, 128
        mtc0  $2, $c1
        addiu $3, $0, 7
        mtc0  $3, $c2
        lw    $4, 640($0)
        addiu $4, $4, 16
        sw    $4, 648($0)
        addiu $1, $0, 648
        mtc0  $1, $c0
        lw    $2, 0xff4($0)
        addiu $2, $2, 136
        mtc0  $2, $c1
        addiu $3, $0, 7
        mtc0  $3, $c3
        lw    $4, 648($0)
        addiu $4, $4, 17
        sw    $4, 656($0)
        addiu $1, $0, 656
        mtc0  $1, $c0
        lw    $2, 0xff4($0)
        addiu $2, $2, 144
        mtc0  $2, $c1
        addiu $3, $0, 7
        mtc0  $3, $c2
        lw    $4, 656($0)
        addiu $4, $4, 18
        sw    $4, 664($0)
        addiu $1, $0, 664
        mtc0  $1, $c0
        lw    $2, 0xff4($0)
        addiu $2, $2, 152
        mtc0  $2, $c1
        addiu $3, $0, 7
        mtc0  $3, $c3
        lw    $4, 664($0)
        addiu $4, $4, 19
        sw    $4, 672($0)
        addiu $20, $20, -1
        bne   $20, $0, loop
        nop
        break
