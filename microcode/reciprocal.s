# reciprocal: one half of 1 / x from the table, made better by a Newton-Raphson step.
#
# In       lane 0 of $v1 and $v2 the high and the low half of x; $v8 lanes 0 to 2 the numbers 2, 1 and -2; $v0 all 0
# Out      lane 0 of $v11 the high half of the result, of $v12 the low half
# Changes  $v3 to $v6, $v9 to $v12, the accumulators, the divider
# Cost     17 instructions
# Theorem  If q is the table's reciprocal of x, which is near 1 / 2x, the result is q (2 - 2 x q): all numbers with 16 bits of
#          fraction, each product rounded down, and each product and difference clamped to 32 bits. If x isn't 0, the result
#          differs from 1 / 2x by no more than (2 + 1 / |x|) / 65536.
#          crates/rsp_routines/specs/Reciprocal.antt
        vrcph $v3[0], $v1[0]        # the high half goes in
        vrcpl $v4[0], $v2[0]        # the low half goes in; the low half of q comes out
        vrcph $v3[0], $v0[0]        # the high half of q
        vmudl $v6, $v2, $v4         # x q
        vmadm $v6, $v1, $v4
        vmadn $v6, $v2, $v3
        vmadh $v5, $v1, $v3
        vmadn $v6, $v0, $v0
        vmudh $v9, $v8, $v8[1]      # 2 - 2 x q
        vmadn $v10, $v6, $v8[2]
        vmadh $v9, $v5, $v8[2]
        vmadn $v10, $v0, $v0
        vmudl $v12, $v4, $v10       # q times that
        vmadm $v12, $v3, $v10
        vmadn $v12, $v4, $v9
        vmadh $v11, $v3, $v9
        vmadn $v12, $v0, $v0
