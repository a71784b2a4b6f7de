# copy: copies bytes of DMEM to another address there.
#
# In       $1 the address of the bytes, $3 that of the copy, $4 their number
# Needs    both addresses multiples of 16 below 4096; the number below 4096, and each address plus the number at most 4096;
#          the copy begins where the bytes begin, or before them, or at their end or later
# Out      the copy
# Changes  $1, $3, $4, $5, $v1, $v30
# Cost     3 instructions, and 6 for each 16 bytes begun, at least once
# Theorem  Byte i of the copy is byte i of the source as it was, for each i below the number, and no other byte of
#          DMEM changes. crates/rsp_routines/specs/Copy.antt
        addu  $5, $3, $4            # the end of the copy
        lqv   $v30[0], 0($5)        # the bytes after the end, which the last SQV restores
copy:   lqv   $v1[0], 0($1)
        addiu $4, $4, -16
        addiu $1, $1, 16
        sqv   $v1[0], 0($3)
        bgtz  $4, copy
        addiu $3, $3, 16
        sqv   $v30[0], 0($5)
