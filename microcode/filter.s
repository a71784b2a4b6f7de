# filter: filters a sound by four coefficients.
#
# In       $1 the address of the samples, $3 of the result, $4 the number of bytes of the result, two for a sample;
#          $v6 lanes 0 to 3 the coefficients c0 to c3, fractions of 32768
# Needs    both addresses multiples of 16 below 4096; the number below 4064; 32 bytes more than that from $1 on inside DMEM
#          (three more samples are used, the others are read and dropped); the result begins where the samples begin, or
#          before them, or 32 bytes or more after their end, and is inside DMEM
# Out      the result
# Changes  $1, $3 to $8, $v1 to $v5, $v30, the accumulators
# Cost     3 instructions, and 19 for each 8 samples begun, at least once
# Theorem  Sample i of the result is (c0 x[i] + c1 x[i+1] + c2 x[i+2] + c3 x[i+3]) / 32768, rounded to the nearest number
#          (halves up) and clamped to 16 bits, and no byte outside of the result changes.
#          crates/rsp_routines/specs/Filter.antt
        addu  $5, $3, $4            # the end of the result
        lqv   $v30[0], 0($5)        # the bytes after the end, which the last SQV restores
filter: lqv   $v1[0], 0($1)         # eight samples
        addiu $6, $1, 2
        addiu $7, $1, 4
        addiu $8, $1, 6
        lqv   $v2[0], 0($6)         # the eight from one, two and three samples later on
        lrv   $v2[0], 16($6)
        lqv   $v3[0], 0($7)
        lrv   $v3[0], 16($7)
        lqv   $v4[0], 0($8)
        lrv   $v4[0], 16($8)
        addiu $4, $4, -16
        addiu $1, $1, 16
        vmulf $v5, $v1, $v6[0]
        vmacf $v5, $v2, $v6[1]
        vmacf $v5, $v3, $v6[2]
        vmacf $v5, $v4, $v6[3]
        sqv   $v5[0], 0($3)
        bgtz  $4, filter
        addiu $3, $3, 16
        sqv   $v30[0], 0($5)
