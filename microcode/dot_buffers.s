# dot_buffers: the dot product of two buffers of numbers of two bytes.
#
# In       $1 and $2 the addresses, $4 how many bytes each buffer has; $v0 all 0, $v31 all 1
# Needs    both addresses multiples of 16 below 4096; an even number below 4096, and each address plus it at most 4096
# Out      the high half of the sum in each lane of $v5, the low half in each lane of $v6
# Changes  $1, $2, $4, $5, $6, $v1 to $v6, the flags, the accumulators
# Cost     34 instructions, and 7 for each whole 16 bytes
# Theorem  The result is the sum of the products of the numbers, modulo 2^32, and DMEM doesn't change.
#          crates/rsp_routines/specs/DotBuffers.antt
        addu  $5, $1, $4            # the ends of the buffers
        addu  $6, $2, $4
        vand  $v1, $v0, $v0         # 0
        vand  $v2, $v0, $v0
        vmudh $v3, $v0, $v0         # the accumulators are 0
        lrv   $v1[0], 0($5)         # the numbers after the last whole vector, zeros before them
        lrv   $v2[0], 0($6)
dot:    vmadh $v3, $v1, $v2         # what was loaded in the round before
        lqv   $v1[0], 0($1)
        lqv   $v2[0], 0($2)
        addiu $4, $4, -16
        addiu $1, $1, 16
        bgez  $4, dot
        addiu $2, $2, 16
        vsar  $v3, $v3, $v3[0]      # the high halves of the sums of the lanes
        vsar  $v4, $v4, $v4[1]      # their low halves
        vmudm $v6, $v31, $v4[0]     # each of them, times 1, to every lane
        vmadh $v5, $v31, $v3[0]
        vmadm $v6, $v31, $v4[1]
        vmadh $v5, $v31, $v3[1]
        vmadm $v6, $v31, $v4[2]
        vmadh $v5, $v31, $v3[2]
        vmadm $v6, $v31, $v4[3]
        vmadh $v5, $v31, $v3[3]
        vmadm $v6, $v31, $v4[4]
        vmadh $v5, $v31, $v3[4]
        vmadm $v6, $v31, $v4[5]
        vmadh $v5, $v31, $v3[5]
        vmadm $v6, $v31, $v4[6]
        vmadh $v5, $v31, $v3[6]
        vmadm $v6, $v31, $v4[7]
        vmadh $v5, $v31, $v3[7]
        vsar  $v5, $v5, $v5[1]      # the high half of the sum of all
        vsar  $v6, $v6, $v6[2]      # the low half
