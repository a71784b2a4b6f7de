# clip: computes on which side of -w to w eight numbers of 32 bits are.
#
# In       the high halves of the numbers in $v1, the low halves in $v2; those of w in $v3 and $v4
# Out      $1: bit i says of lane i that x <= -w, and not both are 0; bit 8 + i that x >= w; bit 15 is repeated above
# Changes  $1, $v5, $v6, the flags, the accumulators
# Cost     3 instructions
# Theorem  The compare flag of lane i says whether x <= -w, and not both are 0; its clip flag whether x >= w; and $1 is VCC.
#          crates/rsp_routines/specs/Clip.antt
        vch   $v5, $v1, $v3         # the high halves first
        vcl   $v6, $v2, $v4         # then the low ones, by the flags that VCH left
        cfc2  $1, $vcc
