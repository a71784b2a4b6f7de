# blocks: copies blocks of RDRAM to another address there, by double buffering in DMEM.
#
# In       $1 the address of the first block in RDRAM, $2 where it goes there, $6 the number of bytes of a block, $3 that
#          number less 1, $5 the address of a buffer in DMEM, $7 the sum of the addresses of both buffers, $8 the number of blocks
# Out      the blocks, one after the other
# Needs    one block at least, of 4096 bytes at most; the addresses and the number of bytes multiples of 8; the buffers' addresses
#          below 1000 in hexadecimal; the blocks, and what they go to, inside RDRAM; they go to where they are, or before it, or to
#          their end or after it. On a chip, whose transfers take time, the buffers are apart
# Changes  $1, $2, $4, $5, $8, the buffers, SP registers 0 to 3
# Cost     15 instructions for each block, and 3
# Theorem  Byte i there is byte i of the blocks as they were, no other byte of RDRAM changes, and none of DMEM outside of the
#          buffers. The machine continues after the last instruction. A transfer is done at once.
#          crates/rsp_routines/specs/Blocks.antt
next:   mtc0  $5, $c0               # a block comes to a buffer,
        mtc0  $1, $c1
        mtc0  $3, $c2
come:   mfc0  $4, $c6               # while the one before is sent from the other
        bne   $4, $0, come
        nop
        mtc0  $5, $c0               # and is sent
        mtc0  $2, $c1
        mtc0  $3, $c3
        addu  $1, $1, $6
        addu  $2, $2, $6
        subu  $5, $7, $5            # the other buffer
        addiu $8, $8, -1
        bne   $8, $0, next
        nop
sent:   mfc0  $4, $c6               # until the last is sent
        bne   $4, $0, sent
        nop
