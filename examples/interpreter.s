# interpreter.s: an interpreter for a small stack machine, and two programs.
#
# An instruction is a byte, in most cases with a signed byte as its operand:
#
#   0 halt               the end, with status 0
#   1 push n             n on top
#   2 load v             the variable v on top
#   3 store v            takes the top off, into the variable v
#   4 add  5 sub  6 mul  take two words off, and put one on top
#   7 jump_if d          takes the top off; where it isn't 0, goes d bytes on
#                        from the next instruction
#   8 send               takes the top off, to the outbound mailbox
#   9 call k             puts natives[k] of the top in place of the top
#   any other            the end, with status 1
#
# Sends five words: 10! (3628800), the square of 12 (144), the number of one
# bits of -1 (32), and the two programs' statuses (0 and 1).

	.file	"interpreter.c"
	.text

	.section	.rodata
	.align	4
	.type	factorial, @object
# 10! by a loop: variable 0 is the product, variable 1 the factor.
factorial:
	.byte	1, 1		# push 1
	.byte	3, 0		# store 0
	.byte	1, 10		# push 10
	.byte	3, 1		# store 1
	.byte	2, 0		# load 0, where the loop begins
	.byte	2, 1		# load 1
	.byte	6		# mul
	.byte	3, 0		# store 0
	.byte	2, 1		# load 1
	.byte	1, 1		# push 1
	.byte	5		# sub
	.byte	3, 1		# store 1
	.byte	2, 1		# load 1
	.byte	7, -18		# jump_if, back to load 0
	.byte	2, 0		# load 0
	.byte	8		# send
	.byte	0		# halt
	.size	factorial, .-factorial

# Two calls of natives, then an instruction that there isn't.
	.type	calls, @object
calls:
	.byte	1, 7		# push 7
	.byte	1, 5		# push 5
	.byte	4		# add
	.byte	9, 0		# call square
	.byte	8		# send
	.byte	1, -1		# push -1
	.byte	9, 1		# call one_bits
	.byte	8		# send
	.byte	77
	.size	calls, .-calls

# int (*natives[2])(int), in another quadword than the bytes of the programs
	.align	4
	.type	natives, @object
natives:
	.word	square
	.word	one_bits
	.size	natives, .-natives

# int variables[8], and the words of the stack below its top
	.local	variables
	.comm	variables,32,16
	.local	values
	.comm	values,128,16

	.text

# int product(int a, int b). A multiplication takes halfwords, so three make a
# word: both cross products in the high half, and the low ones.
	.align	3
	.type	product, @function
product:
	mpyh	$5,$3,$4
	mpyh	$6,$4,$3
	mpyu	$7,$3,$4
	a	$5,$5,$6
	a	$3,$5,$7
	bi	$lr
	.size	product, .-product

# int square(int a)
	.align	3
	.type	square, @function
square:
	ori	$4,$3,0
	br	product
	.size	square, .-square

# int one_bits(int a)
	.align	3
	.type	one_bits, @function
one_bits:
	cntb	$4,$3
	sumb	$5,$4,$4
	xshw	$3,$5
	bi	$lr
	.size	one_bits, .-one_bits


# int run(const signed char *code): runs a program, and returns its status.
#
#   $80  the next instruction       $82  the jump table
#   $81  the word below the top     $83  the top of the stack
	.align	3
	.global	run
	.type	run, @function
run:
	stqd	$lr,16($sp)
	stqd	$80,-16($sp)
	stqd	$81,-32($sp)
	stqd	$82,-48($sp)
	stqd	$83,-64($sp)
	stqd	$sp,-96($sp)
	ai	$sp,$sp,-96
	ori	$80,$3,0
	ila	$81,values
	ila	$82,.L6
	il	$83,0

# Reads an instruction into $4, and what may be its operand into $5.
.L2:
	lqd	$2,0($80)
	ai	$3,$80,-3
	ai	$6,$80,1
	rotqby	$4,$2,$3
	lqd	$7,0($6)
	ai	$8,$80,-2
	rotqby	$9,$7,$8
	andi	$4,$4,255
	xsbh	$10,$9
	xshw	$5,$10
	clgti	$11,$4,9
	brnz	$11,.L4
	shli	$12,$4,2
	lqx	$13,$82,$12
	a	$14,$82,$12
	rotqby	$15,$13,$14
	hbr	.L5,$15
	lnop
.L5:
	bi	$15

	.section	.rodata
	.align	2
.L6:
	.word	.L7
	.word	.L8
	.word	.L9
	.word	.L11
	.word	.L12
	.word	.L13
	.word	.L14
	.word	.L15
	.word	.L16
	.word	.L17
	.text

# push n
.L8:
	ai	$80,$80,2
	ori	$16,$5,0
	br	.L10

# load v
.L9:
	ila	$17,variables
	shli	$18,$5,2
	lqx	$19,$17,$18
	a	$20,$17,$18
	ai	$80,$80,2
	rotqby	$16,$19,$20

# The old top goes to the stack in memory, and $16 is the new one.
.L10:
	ai	$81,$81,4
	lqd	$21,0($81)
	cwd	$22,0($81)
	shufb	$23,$83,$21,$22
	ori	$83,$16,0
	stqd	$23,0($81)
	br	.L2

# store v
.L11:
	ila	$17,variables
	shli	$18,$5,2
	lqx	$19,$17,$18
	cwx	$24,$17,$18
	shufb	$25,$83,$19,$24
	stqx	$25,$17,$18
	ai	$80,$80,2

# The new top comes from the stack in memory.
.L3:
	lqd	$26,0($81)
	rotqby	$83,$26,$81
	ai	$81,$81,-4
	br	.L2

# add
.L12:
	lqd	$26,0($81)
	rotqby	$27,$26,$81
	ai	$81,$81,-4
	ai	$80,$80,1
	a	$83,$27,$83
	br	.L2

# sub
.L13:
	lqd	$26,0($81)
	rotqby	$27,$26,$81
	ai	$81,$81,-4
	ai	$80,$80,1
	sf	$83,$83,$27
	br	.L2

# mul
.L14:
	lqd	$26,0($81)
	rotqby	$3,$26,$81
	ori	$4,$83,0
	ai	$81,$81,-4
	ai	$80,$80,1
	brsl	$lr,product
	ori	$83,$3,0
	br	.L2

# jump_if d: $28 is all ones where the top isn't 0
.L15:
	ceqi	$28,$83,0
	nor	$28,$28,$28
	and	$29,$5,$28
	ai	$30,$29,2
	a	$80,$80,$30
	br	.L3

# send
.L16:
	wrch	$ch28,$83
	ai	$80,$80,1
	br	.L3

# call k
.L17:
	ila	$17,natives
	shli	$18,$5,2
	lqx	$19,$17,$18
	a	$20,$17,$18
	rotqby	$31,$19,$20
	ori	$3,$83,0
	ai	$80,$80,2
	bisl	$lr,$31
	ori	$83,$3,0
	br	.L2

# an unknown instruction
.L4:
	il	$3,1
	br	.L18

# halt
.L7:
	il	$3,0
.L18:
	ai	$sp,$sp,96
	lqd	$lr,16($sp)
	lqd	$80,-16($sp)
	lqd	$81,-32($sp)
	lqd	$82,-48($sp)
	lqd	$83,-64($sp)
	bi	$lr
	.size	run, .-run


# int main(void): runs both programs, and sends their statuses.
	.align	3
	.global	main
	.type	main, @function
main:
	stqd	$lr,16($sp)
	stqd	$80,-16($sp)
	stqd	$sp,-48($sp)
	ai	$sp,$sp,-48
	ila	$3,factorial
	brsl	$lr,run
	ori	$80,$3,0
	ila	$3,calls
	brsl	$lr,run
	wrch	$ch28,$80
	wrch	$ch28,$3
	il	$3,0
	ai	$sp,$sp,48
	lqd	$lr,16($sp)
	lqd	$80,-16($sp)
	bi	$lr
	.size	main, .-main
	.ident	"examples of Sumnaich"
