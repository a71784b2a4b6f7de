# resample: eight samples between eight others and the ones after them, on a straight line.
#
# In       $v1 the samples before, $v2 those after, $v3 how far it is from one to the other: a fraction of 65536, unsigned;
#          $v0 all 0, lane 0 of $v5 the number 1
# Out      $v4 the samples between
# Changes  $v4, $v6, the accumulators
# Cost     4 instructions
# Theorem  In each lane the result is (a (65536 - f) + b f) / 65536, rounded down, for the samples a and b and the fraction f.
#          crates/rsp_routines/specs/Resample.antt
        vnor  $v6, $v3, $v0         # 65535 - f
        vmudm $v4, $v1, $v6         # a (65535 - f)
        vmadm $v4, $v1, $v5[0]      # and a once more
        vmadm $v4, $v2, $v3         # and b f
