# root: the square root of x, from the table's inverse root and a Newton-Raphson step.
#
# In       lane 0 of $v1 and $v2 the high and the low half of x, which isn't negative; $v8 lanes 0 to 3 the numbers 3, 8000, fffe
#          and 0200 in hexadecimal; $v0 all 0
# Out      lane 0 of $v11 the high half of the result, of $v12 the low half
# Changes  $v3 to $v6, $v9 to $v12, the accumulators, the divider
# Cost     24 instructions
# Theorem  If q is the table's inverse root of x, which is near 128 over the root, and t is x q, the result is t r / 128, and r is
#          3 / 2 - 2 (t q / 65536): all numbers with 16 bits of fraction, each product and quotient rounded down. The result's
#          square is no more than x + 7 x / 65536, and the next number's square no less than x - 6 x / 65536.
#          crates/rsp_routines/specs/Root.antt
        vrsqh $v3[0], $v1[0]        # the high half goes in
        vrsql $v4[0], $v2[0]        # the low half goes in; the low half of q comes out
        vrsqh $v3[0], $v0[0]        # the high half of q
        vmudl $v6, $v2, $v4         # t, which is x q
        vmadm $v6, $v1, $v4
        vmadn $v6, $v2, $v3
        vmadh $v5, $v1, $v3
        vmadn $v6, $v0, $v0
        vmudl $v10, $v6, $v4        # t q
        vmadm $v10, $v5, $v4
        vmadn $v10, $v6, $v3
        vmadh $v9, $v5, $v3
        vmadn $v10, $v0, $v0
        vmudn $v10, $v9, $v8[2]     # r, by the high half of t q
        vmadm $v9, $v8, $v8[1]
        vmadn $v10, $v0, $v0
        vmudl $v12, $v6, $v10       # t r
        vmadm $v12, $v5, $v10
        vmadn $v12, $v6, $v9
        vmadh $v11, $v5, $v9
        vmadn $v12, $v0, $v0
        vmudl $v12, $v12, $v8[3]    # t r / 128
        vmadm $v11, $v11, $v8[3]
        vmadn $v12, $v0, $v0
