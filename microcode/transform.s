# transform: two vectors of four whole numbers, each times a matrix of 4 by 4 numbers with 16 bits of fraction.
#
# In       $1 the address of the matrices: the high halves of columns 0 to 3, 16 bytes each, and then the low halves; of each
#          column four numbers of the first matrix and four of the second. $2 the address of the vectors, eight numbers of
#          two bytes. $3 the address of the result. $v0 all 0
# Needs    the addresses multiples of 16
# Out      the result: eight high halves, then eight low halves
# Changes  $v1 to $v11, the accumulators
# Cost     20 instructions
# Theorem  Number i of the result is row i of the matrix times the vector, modulo 2^48 and then clamped to 32 bits, and no
#          byte outside of the result changes. crates/rsp_routines/specs/Transform.antt
        lqv   $v1[0], 0($1)         # the high halves
        lqv   $v2[0], 16($1)
        lqv   $v3[0], 32($1)
        lqv   $v4[0], 48($1)
        lqv   $v5[0], 64($1)        # the low halves
        lqv   $v6[0], 80($1)
        lqv   $v7[0], 96($1)
        lqv   $v8[0], 112($1)
        lqv   $v9[0], 0($2)         # the vectors
        vmudn $v11, $v5, $v9[0h]    # column 0 by number 0 of each vector
        vmadh $v10, $v1, $v9[0h]
        vmadn $v11, $v6, $v9[1h]
        vmadh $v10, $v2, $v9[1h]
        vmadn $v11, $v7, $v9[2h]
        vmadh $v10, $v3, $v9[2h]
        vmadn $v11, $v8, $v9[3h]
        vmadh $v10, $v4, $v9[3h]
        vmadn $v11, $v0, $v0        # nothing more: the low halves
        sqv   $v10[0], 0($3)
        sqv   $v11[0], 16($3)
