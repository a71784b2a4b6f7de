# multiply: eight products of s15.16 numbers, which have 16 whole bits and 16 bits of fraction.
#
# In       the high halves in $v1 and $v3, the low halves in $v2 and $v4; $v0 all 0
# Out      $v9 the high halves of the products, $v10 the low halves
# Changes  $v9, $v10, the accumulators
# Cost     5 instructions
# Theorem  In each lane the result is the product of the two numbers, rounded down to 16 bits of fraction and clamped to 32
#          bits. crates/rsp_routines/specs/Multiply.antt
        vmudl $v10, $v2, $v4        # low by low
        vmadm $v10, $v1, $v4        # high by low
        vmadn $v10, $v2, $v3        # low by high
        vmadh $v9, $v1, $v3         # high by high: the high half of the result
        vmadn $v10, $v0, $v0        # nothing more: the low half
