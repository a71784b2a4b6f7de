# mix: mixes a sound, at a volume, into another.
#
# In       $1 the address of the first sound, $2 of the second, $3 of the mix, $4 the number of bytes, two for a sample;
#          $v3 lane 0 the volume of the first as a fraction of 32768, lane 1 that of the second as a whole number;
#          samples and volumes are signed
# Needs    all addresses multiples of 16 below 4096; the number below 4096, and each address plus the number at most 4096;
#          for each sound: the mix begins where the sound begins, or before it, or at its end or later
# Out      the mix
# Changes  $1 to $5, $v1, $v2, $v4, $v30, the accumulators
# Cost     3 instructions, and 10 for each 8 samples begun, at least once
# Theorem  Sample i of the mix is a v / 32768 + b w, rounded to the nearest number (halves up) and clamped to 16 bits,
#          for samples a and b and the volumes v and w, and no byte outside of the mix changes.
#          crates/rsp_routines/specs/Mix.antt
        addu  $5, $3, $4            # the end of the mix
        lqv   $v30[0], 0($5)        # the bytes after the end, which the last SQV restores
mix:    lqv   $v1[0], 0($1)
        lqv   $v2[0], 0($2)
        addiu $4, $4, -16
        addiu $1, $1, 16
        vmulf $v4, $v1, $v3[0]      # a v, and one half for the rounding
        vmadh $v4, $v2, $v3[1]      # and b w; the result is clamped once
        addiu $2, $2, 16
        sqv   $v4[0], 0($3)
        bgtz  $4, mix
        addiu $3, $3, 16
        sqv   $v30[0], 0($5)
