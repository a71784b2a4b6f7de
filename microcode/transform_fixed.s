# transform_fixed: two vectors of four numbers, each times a matrix of 4 by 4, all with 16 bits of fraction, in registers.
#
# In       $v16 to $v19 the high halves of columns 0 to 3, $v20 to $v23 the low halves: of each column four numbers of the
#          first matrix and four of the second. $v9 and $v10 the high and the low halves of the vectors. $v0 all 0
# Out      $v1 the high halves of the result, $v2 the low halves
# Changes  $v1, $v2, the accumulators
# Cost     17 instructions
# Theorem  Number i of the result is row i of the matrix times the vector: four products, each rounded down, and their sum
#          modulo 2^48, then clamped to 32 bits. crates/rsp_routines/specs/TransformFixed.antt
        vmudl $v2, $v20, $v10[0h]   # column 0 by number 0 of each vector: low by low
        vmadm $v2, $v16, $v10[0h]   # high by low
        vmadn $v2, $v20, $v9[0h]    # low by high
        vmadh $v1, $v16, $v9[0h]    # high by high
        vmadl $v2, $v21, $v10[1h]
        vmadm $v2, $v17, $v10[1h]
        vmadn $v2, $v21, $v9[1h]
        vmadh $v1, $v17, $v9[1h]
        vmadl $v2, $v22, $v10[2h]
        vmadm $v2, $v18, $v10[2h]
        vmadn $v2, $v22, $v9[2h]
        vmadh $v1, $v18, $v9[2h]
        vmadl $v2, $v23, $v10[3h]
        vmadm $v2, $v19, $v10[3h]
        vmadn $v2, $v23, $v9[3h]
        vmadh $v1, $v19, $v9[3h]    # the high halves of the result
        vmadn $v2, $v0, $v0         # nothing more: the low halves
