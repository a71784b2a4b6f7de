# dot: the dot product of two vectors of eight whole numbers. Lanes that aren't used have 0 in one of the two.
#
# In       $v1 and $v2 the numbers; $v0 all 0, $v31 all 1
# Out      the high half of the sum in each lane of $v5, the low half in each lane of $v6
# Changes  $v3 to $v6, the accumulators
# Cost     20 instructions
# Theorem  The result is the sum of the eight products, exactly, clamped to 32 bits.
#          crates/rsp_routines/specs/Dot.antt
        vmudh $v3, $v1, $v2         # the products
        vsar  $v3, $v3, $v3[0]      # their high halves
        vsar  $v4, $v4, $v4[1]      # their low halves
        vmudm $v6, $v31, $v4[0]     # each of them, times 1, to every lane
        vmadh $v5, $v31, $v3[0]
        vmadm $v6, $v31, $v4[1]
        vmadh $v5, $v31, $v3[1]
        vmadm $v6, $v31, $v4[2]
        vmadh $v5, $v31, $v3[2]
        vmadm $v6, $v31, $v4[3]
        vmadh $v5, $v31, $v3[3]
        vmadm $v6, $v31, $v4[4]
        vmadh $v5, $v31, $v3[4]
        vmadm $v6, $v31, $v4[5]
        vmadh $v5, $v31, $v3[5]
        vmadm $v6, $v31, $v4[6]
        vmadh $v5, $v31, $v3[6]
        vmadm $v6, $v31, $v4[7]
        vmadh $v5, $v31, $v3[7]
        vmadn $v6, $v0, $v0         # nothing more: the low half
