# mix_ramp: mixes a sound, at volumes that grow, into another.
#
# In       $1 the address of the first sound, $2 of the second, $3 of the mix, $4 the number of bytes, two for a sample;
#          $v3 and $v4 the high and the low halves of the first sound's volumes, one for each lane, $v5 and $v6 those of the
#          steps; $v8 lane 0 the volume of the second sound as a whole number; samples, volumes and steps are signed
# Needs    what mix.s needs of the addresses and of the number
# Out      the mix, and in $v3 and $v4 the volumes for the samples that follow it
# Changes  $1 to $5, $v1 to $v4, $v7, $v30, the flags, the accumulators
# Cost     3 instructions, and 12 for each 8 samples begun, at least once
# Theorem  Sample i of the mix is a v / 32768 + b w, rounded to the nearest number (halves up) and clamped to 16 bits, for
#          samples a and b, the high half v of the volume of lane i mod 8, and the second sound's volume w; and no byte
#          outside of the mix changes. After each 8 samples the volumes grow by the steps, as numbers of 32 bits; a high half
#          that leaves 16 bits is clamped. crates/rsp_routines/specs/MixRamp.antt
        addu  $5, $3, $4            # the end of the mix
        lqv   $v30[0], 0($5)        # the bytes after the end, which the last SQV restores
ramp:   lqv   $v1[0], 0($1)
        lqv   $v2[0], 0($2)
        addiu $4, $4, -16
        addiu $1, $1, 16
        vmulf $v7, $v1, $v3         # a v, and one half for the rounding
        vmadh $v7, $v2, $v8[0]      # and b w; the result is clamped once
        vaddc $v4, $v4, $v6         # the low halves of the next volumes, with carries
        vadd  $v3, $v3, $v5         # the high halves
        addiu $2, $2, 16
        sqv   $v7[0], 0($3)
        bgtz  $4, ramp
        addiu $3, $3, 16
        sqv   $v30[0], 0($5)
