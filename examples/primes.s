# primes.s: the primes below 256, by the sieve of Eratosthenes.
#
# Sends three words to the outbound mailbox: how many primes there are below
# 256 (54), the greatest of them (251), and their sum (6081).
#
# Each function has a section of its own, as compilers give with
# -ffunction-sections, so that a linker may place each where it likes.

	.file	"primes.c"
	.text

# unsigned char composite[256]: 1 at each n that is known not to be prime.
	.local	composite
	.comm	composite,256,16

# struct { int count, greatest, sum, unused; } totals
	.section	.bss,"aw",@nobits
	.align	4
	.global	totals
	.type	totals, @object
totals:
	.space	16
	.size	totals, 16


# void mark_multiples(int step): marks step * step and each step-th place
# after it. The step is from 2 to 15, so that its square is below 256.
#
#   $3  step                $6  address of composite
#   $5  the place to mark   $8  the byte 1, where a byte is kept in a word
	.section	.text.mark_multiples,"ax",@progbits
	.align	3
	.type	mark_multiples, @function
mark_multiples:
	mpyu	$5,$3,$3
	ila	$6,composite
	il	$8,1
	hbrr	.L3,.L2
.L2:
	lqx	$9,$6,$5
	cbx	$10,$6,$5
	shufb	$11,$8,$9,$10
	stqx	$11,$6,$5
	a	$5,$5,$3
	clgti	$12,$5,255
.L3:
	brz	$12,.L2
	bi	$lr
	.size	mark_multiples, .-mark_multiples


# void sieve(void): afterwards composite[n] is 1 where n is 0, 1 or composite,
# and 0 where n is prime.
#
#   $80  the step, from 2 to 15
#   $81  address of composite
	.section	.text.sieve,"ax",@progbits
	.align	3
	.type	sieve, @function
sieve:
	stqd	$lr,16($sp)
	stqd	$80,-16($sp)
	stqd	$81,-32($sp)
	stqd	$sp,-64($sp)
	ai	$sp,$sp,-64
	# 0 and 1 aren't prime: one halfword of two bytes 1
	ila	$81,composite
	ilh	$4,257
	lqd	$2,0($81)
	chd	$3,0($81)
	shufb	$2,$4,$2,$3
	il	$80,2
	stqd	$2,0($81)
.L6:
	# composite[step], turned into byte 3 of a word
	lqx	$4,$81,$80
	a	$5,$81,$80
	ai	$5,$5,-3
	rotqby	$6,$4,$5
	andi	$6,$6,255
	brnz	$6,.L7
	ori	$3,$80,0
	brsl	$lr,mark_multiples
.L7:
	ai	$80,$80,1
	ceqi	$7,$80,16
	brz	$7,.L6
	ai	$sp,$sp,64
	lqd	$lr,16($sp)
	lqd	$80,-16($sp)
	lqd	$81,-32($sp)
	bi	$lr
	.size	sieve, .-sieve


# int count_primes(void): how many bytes of composite are 0.
#
# It takes 16 bytes at a time: their marks become one bit each, and the bits of
# one word are counted.
	.section	.text.count_primes,"ax",@progbits
	.align	3
	.type	count_primes, @function
count_primes:
	ila	$4,composite
	il	$5,0
	il	$3,0
.L10:
	lqx	$6,$4,$5
	ceqbi	$7,$6,0
	gbb	$8,$7
	cntb	$9,$8
	sumb	$10,$9,$9
	xshw	$11,$10
	ai	$5,$5,16
	a	$3,$3,$11
	ceqi	$12,$5,256
	brz	$12,.L10
	bi	$lr
	.size	count_primes, .-count_primes


# void add_up(struct totals *t): fills in all that is wanted of the primes.
#
#   $80  t              $9   their sum so far
#   $10  the greatest   $11  n, from 2 to 255
	.section	.text.add_up,"ax",@progbits
	.align	3
	.global	add_up
	.type	add_up, @function
add_up:
	stqd	$lr,16($sp)
	stqd	$80,-16($sp)
	stqd	$sp,-48($sp)
	ai	$sp,$sp,-48
	lnop
	ori	$80,$3,0
	brsl	$lr,count_primes
	ila	$4,composite
	il	$9,0
	il	$10,0
	il	$11,2
	hbrr	.L14,.L13
.L13:
	lqx	$12,$4,$11
	a	$13,$4,$11
	ai	$13,$13,-3
	rotqby	$12,$12,$13
	andi	$12,$12,255
	# all ones in $14 where n is prime, else 0
	ceqi	$14,$12,0
	and	$15,$11,$14
	a	$9,$9,$15
	selb	$10,$10,$11,$14
	ai	$11,$11,1
	cgti	$16,$11,255
.L14:
	brz	$16,.L13
	# t->count, t->greatest and t->sum are words 0, 1 and 2 of one quadword
	lqd	$17,0($80)
	cwd	$18,0($80)
	cwd	$19,4($80)
	shufb	$17,$3,$17,$18
	cwd	$20,8($80)
	shufb	$17,$10,$17,$19
	shufb	$17,$9,$17,$20
	ai	$sp,$sp,48
	stqd	$17,0($80)
	lqd	$lr,16($sp)
	lqd	$80,-16($sp)
	bi	$lr
	.size	add_up, .-add_up


# int main(void): sifts, adds up, and sends the three totals.
	.section	.text.main,"ax",@progbits
	.align	3
	.global	main
	.type	main, @function
main:
	stqd	$lr,16($sp)
	stqd	$sp,-32($sp)
	ai	$sp,$sp,-32
	lnop
	brsl	$lr,sieve
	ila	$3,totals
	brsl	$lr,add_up
	lqa	$4,totals
	rotqbyi	$5,$4,4
	rotqbyi	$6,$4,8
	wrch	$ch28,$4
	wrch	$ch28,$5
	wrch	$ch28,$6
	il	$3,0
	ai	$sp,$sp,32
	lqd	$lr,16($sp)
	bi	$lr
	.size	main, .-main
	.ident	"examples of Sumnaich"
