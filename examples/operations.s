# operations.s: functions of some words, at least one, and the table of them.
# totals.s has the rest of the program.

	.file	"operations.c"
	.text

# int sum(const int *words, int count)
	.align	3
	.global	sum
	.type	sum, @function
sum:
	il	$5,0
.L2:
	lqd	$6,0($3)
	rotqby	$7,$6,$3
	a	$5,$5,$7
	ai	$3,$3,4
	ai	$4,$4,-1
	brnz	$4,.L2
	ori	$3,$5,0
	bi	$lr
	.size	sum, .-sum

# static int extreme(const int *words, int count, int mask): the greatest of the
# words where the mask is 0, and where it is -1 the complement of the least, which
# is the greatest of their complements.
	.align	3
	.type	extreme, @function
extreme:
	lqd	$6,0($3)
	rotqby	$7,$6,$3
	xor	$8,$7,$5
.L5:
	lqd	$6,0($3)
	rotqby	$7,$6,$3
	xor	$9,$7,$5
	cgt	$10,$9,$8
	selb	$8,$8,$9,$10
	ai	$3,$3,4
	ai	$4,$4,-1
	brnz	$4,.L5
	ori	$3,$8,0
	bi	$lr
	.size	extreme, .-extreme

# static int greatest(const int *words, int count)
	.align	3
	.type	greatest, @function
greatest:
	il	$5,0
	br	extreme
	.size	greatest, .-greatest

# static int least(const int *words, int count)
	.align	3
	.type	least, @function
least:
	stqd	$lr,16($sp)
	stqd	$sp,-32($sp)
	ai	$sp,$sp,-32
	il	$5,-1
	brsl	$lr,extreme
	xori	$3,$3,-1
	ai	$sp,$sp,32
	lqd	$lr,16($sp)
	bi	$lr
	.size	least, .-least

# int spread(const int *words, int count): how far the least and the greatest are
# apart.
#
#   $80  the words
#   $81  their count
#   $82  the greatest of them
	.align	3
	.global	spread
	.type	spread, @function
spread:
	stqd	$lr,16($sp)
	stqd	$80,-16($sp)
	stqd	$81,-32($sp)
	stqd	$82,-48($sp)
	stqd	$sp,-80($sp)
	ai	$sp,$sp,-80
	ori	$80,$3,0
	ori	$81,$4,0
	brsl	$lr,greatest
	ori	$82,$3,0
	ori	$3,$80,0
	ori	$4,$81,0
	brsl	$lr,least
	sf	$3,$3,$82
	ai	$sp,$sp,80
	lqd	$82,-48($sp)
	lqd	$81,-32($sp)
	lqd	$80,-16($sp)
	lqd	$lr,16($sp)
	bi	$lr
	.size	spread, .-spread

# int (*operations[4])(const int *, int), and how many there are
	.section	.rodata
	.align	4
	.global	operations
	.type	operations, @object
operations:
	.word	sum
	.word	greatest
	.word	least
	.word	spread
	.size	operations, .-operations
	.global	operation_count
	.type	operation_count, @object
operation_count:
	.word	4
	.size	operation_count, .-operation_count
