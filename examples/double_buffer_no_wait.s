# Double buffering without its wait.
# In rsp it works, because a DMA is done at once; on a console it may load old bytes.
# docs/COOKBOOK.md, "Waits that are missing", shows how rsp.waits finds this.
        ori   $1, $0, 0x800     # the first block in RDRAM
        ori   $7, $0, 0xc00     # the end of the blocks
        jal   fetch             # the first block
        ori   $2, $0, 0x400
next:   ori   $4, $2, 0         # before this, wait until the block has come
        xori  $2, $2, 0x100     # the next block comes to the other buffer
        jal   fetch
        addiu $1, $1, 256
        lw    $5, 0($4)         # the work on the block at $4
        bne   $1, $7, next
        nop
last:   mfc0  $3, $c6
        bne   $3, $0, last
        nop
        break
fetch:  mtc0  $2, $c0
        mtc0  $1, $c1
        ori   $3, $0, 255
        jr    $31
        mtc0  $3, $c2           # the delay slot
