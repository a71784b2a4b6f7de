# Clip codes of two points by their w, between other instructions.
    vadd $v7, $v1, $v1
    vch $v5, $v1, $v1[3h]
    vcl $v5, $v2, $v2[3h]
    cfc2 $2, $vcc
    sqv $v7[0], 0($3)
