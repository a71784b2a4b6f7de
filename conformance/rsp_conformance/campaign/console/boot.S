# The beginning of the monitor: it sets up the CPU, its caches and the buses, as a console's PIF ROM does, copies the monitor to RDRAM, and runs it there.
	.set noreorder
	.set noat
	.section .boot, "ax"
	.globl _start
_start:
	li   $t0, 0x34000000        # coprocessors 1 and 0, 64-bit floating-point registers
	mtc0 $t0, $12
	mfc0 $t1, $16
	nop
	li   $t2, ~7
	and  $t1, $t1, $t2
	ori  $t1, 3
	mtc0 $t1, $16               # KSEG0 is cached
	nop
	nop
	nop
	mtc0 $0, $28                # the tags of the caches: all lines are invalid
	mtc0 $0, $29
	li   $t0, 0x80000000
	li   $t1, 0x80004000
1:	cache 0x08, 0($t0)
	addiu $t0, 32
	bne  $t0, $t1, 1b
	nop
	li   $t0, 0x80000000
	li   $t1, 0x80002000
2:	cache 0x09, 0($t0)
	addiu $t0, 16
	bne  $t0, $t1, 2b
	nop
	lui  $t0, 0xa470            # the interface of RDRAM, as after a boot
	li   $t1, 0x40
	sw   $t1, 0($t0)
	sw   $0, 8($t0)
	li   $t1, 0x14
	sw   $t1, 0xc($t0)
	li   $t1, 0x63634
	sw   $t1, 0x10($t0)
	lui  $t0, 0xa460            # the timing of the cartridge
	li   $t1, 0x40
	sw   $t1, 0x14($t0)
	li   $t1, 0x12
	sw   $t1, 0x18($t0)
	la   $t0, __load
	la   $t1, __text
	la   $t2, __end
	lui  $t4, 0x2000
	addu $t1, $t1, $t4          # past the cache
	addu $t2, $t2, $t4
3:	lw   $t3, 0($t0)
	sw   $t3, 0($t1)
	addiu $t0, 4
	sltu $t4, $t1, $t2
	bnez $t4, 3b
	addiu $t1, 4
	la   $sp, 0x80070000
	la   $t0, execute
	jr   $t0
	nop
