# The first loop of docs/COOKBOOK.md, whose branch compares before the step.
next:
    lw $3, 0($1)
    addu $2, $2, $3
    bne $1, $4, next
    addiu $1, $1, 4
