# The ROM's first code, which the PIF has copied to DMEM, and the microcode that the program starts.
	.set noreorder
	.set noat
	.section .boot,"ax"
	.globl _start
_start:
	li   $t0, 0x34000000
	mtc0 $t0, $12           # coprocessors 0 and 1 are usable; no interrupts
	la   $t0, __load        # where the program is in the cartridge
	la   $t1, __text
	la   $t2, __end
	lui  $t4, 0x2000
	addu $t1, $t1, $t4      # past the caches
	addu $t2, $t2, $t4
1:	lw   $t3, 0($t0)
	sw   $t3, 0($t1)
	addiu $t1, 4
	sltu $t4, $t1, $t2
	bnez $t4, 1b
	addiu $t0, 4
	la   $sp, 0x80070000
	la   $t0, run
	jr   $t0
	nop
	.section .rodata
	.macro microcode name
	.balign 8
	.globl \name
\name:	.incbin "\name\().bin"
	.globl \name\()_end
\name\()_end:
	.endm
	microcode scalar
	microcode vector
	microcode overlay
	microcode overlay_one
	microcode overlay_two
	microcode signals
	microcode semaphore
	microcode list
	microcode registers
	microcode task_boot
	microcode task_add
	microcode speed
	microcode many
