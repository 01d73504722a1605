# totals.s, with operations.s: what some functions make of the words of an area.
#
# The area `values`, of 16 to 256 bytes, is read to the local store. Each function
# of the table `operations` is called with its words, and what it gives is sent to
# the outbound mailbox.

	.file	"totals.c"

# The quadword that tells where the area lies, and how long it is.
	.section	.toe,"a"
	.align	4
	.global	_EAR_values
	.type	_EAR_values, @object
_EAR_values:
	.quad	0
	.quad	0
	.size	_EAR_values, .-_EAR_values

# static int values[64]
	.local	values
	.comm	values,256,128

	.text

# int fetch(void): reads the area, and gives the count of its words.
#
# The transfer is that of tag 1; the mask 2 stands for it, and the update 2 waits
# until all of the mask have landed.
	.align	3
	.global	fetch
	.type	fetch, @function
fetch:
	lqr	$2,_EAR_values
	ila	$5,values
	rotqbyi	$6,$2,4
	rotqbyi	$7,$2,8
	il	$8,1
	il	$9,0x40
	il	$10,2
	wrch	$ch16,$5
	wrch	$ch17,$2
	wrch	$ch18,$6
	wrch	$ch19,$7
	wrch	$ch20,$8
	wrch	$ch21,$9
	wrch	$ch22,$10
	wrch	$ch23,$10
	rdch	$11,$ch24
	rotmi	$3,$7,-2
	bi	$lr
	.size	fetch, .-fetch

# int main(void)
#
#   $80  the next function's place in the table
#   $81  how many are left
#   $82  the count of words
	.align	3
	.global	main
	.type	main, @function
main:
	stqd	$lr,16($sp)
	stqd	$80,-16($sp)
	stqd	$81,-32($sp)
	stqd	$82,-48($sp)
	stqd	$sp,-80($sp)
	ai	$sp,$sp,-80
	brsl	$lr,fetch
	ori	$82,$3,0
	ila	$80,operations
	lqr	$81,operation_count
.L2:
	lqd	$2,0($80)
	rotqby	$5,$2,$80
	ila	$3,values
	ori	$4,$82,0
	bisl	$lr,$5
	wrch	$ch28,$3
	ai	$80,$80,4
	ai	$81,$81,-1
	brnz	$81,.L2
	il	$3,0
	ai	$sp,$sp,80
	lqd	$82,-48($sp)
	lqd	$81,-32($sp)
	lqd	$80,-16($sp)
	lqd	$lr,16($sp)
	bi	$lr
	.size	main, .-main
	.ident	"by hand"
