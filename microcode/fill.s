# fill: fills bytes of DMEM with the sixteen bytes of a vector register, repeated.
#
# In       $3 the address, $4 the number of bytes, $v1 the sixteen bytes
# Needs    the address a multiple of 16 below 4096; the number below 4096, and the address plus it at most 4096
# Out      the bytes
# Changes  $3, $4, $5, $v30
# Cost     3 instructions, and 4 for each 16 bytes begun, at least once
# Theorem  Byte i is byte i mod 16 of $v1, for each i below the number, and no other byte of DMEM changes.
#          crates/rsp_routines/specs/Fill.antt
        addu  $5, $3, $4            # the end
        lqv   $v30[0], 0($5)        # the bytes after the end, which the last SQV restores
fill:   sqv   $v1[0], 0($3)
        addiu $4, $4, -16
        bgtz  $4, fill
        addiu $3, $3, 16
        sqv   $v30[0], 0($5)
