# digits.s: numbers as text, one character in each word that is sent.
#
# For each entry of a table it sends a line with the entry's name, its value in
# decimal and in hexadecimal, and after the last line how many characters there
# were (98), as one more word:
#
#   least=-2147483648 0x80000000
#   greatest=2147483647 0x7fffffff
#   zero=0 0x00000000
#   dozen=12 0x0000000c

	.file	"digits.c"
	.text

	.section	.rodata.str1.16,"aMS",@progbits,1
	.align	4
.LC0:
	.string	"least"
	.align	4
.LC1:
	.string	"greatest"
	.align	4
.LC2:
	.string	"zero"
	.align	4
.LC3:
	.string	"dozen"
	.align	4
.LC4:
	.string	" 0x"

# Constants of a whole quadword. For send_hex: a shuffle that gives each of a
# word's four bytes twice, and then zeros.
	.section	.rodata.cst16,"aM",@progbits,16
	.align	4
.LC5:
	.octa	0x00000101020203038080808080808080
.LC6:
	.ascii	"0123456789abcdef"

	.section	.rodata
	.align	4
	.type	powers, @object
# What each decimal place is worth, from the left
powers:
	.word	1000000000, 100000000, 10000000, 1000000, 100000
	.word	10000, 1000, 100, 10, 1
	.size	powers, .-powers

# struct { const char *name; int value } entries[4]
	.data
	.align	4
	.global	entries
	.type	entries, @object
entries:
	.word	.LC0
	.word	-2147483648
	.word	.LC1
	.word	0x7fffffff
	.word	.LC2
	.word	0
	.word	.LC3
	.word	12
	.size	entries, .-entries

# int sent: how many characters were sent
	.section	.bss,"aw",@nobits
	.align	4
	.type	sent, @object
sent:
	.zero	16
	.size	sent, 4

	.text

# void send(int character): sends one character, and counts it.
	.align	3
	.global	send
	.type	send, @function
send:
	lqr	$4,sent
	ila	$5,sent
	cwd	$6,0($5)
	wrch	$ch28,$3
	ai	$7,$4,1
	shufb	$8,$7,$4,$6
	nop
	stqr	$8,sent
	bi	$lr
	.size	send, .-send


# void send_string(const char *string): sends the characters before a zero byte.
#
#   $80  address of the next character
	.align	3
	.global	send_string
	.type	send_string, @function
send_string:
	stqd	$lr,16($sp)
	stqd	$80,-16($sp)
	stqd	$sp,-48($sp)
	ai	$sp,$sp,-48
	lnop
	ori	$80,$3,0
	br	.L5
.L4:
	hbrr	.L6,send
	ai	$80,$80,1
.L6:
	brsl	$lr,send
.L5:
	lqd	$2,0($80)
	ai	$4,$80,-3
	rotqby	$5,$2,$4
	andi	$3,$5,255
	brnz	$3,.L4
	ai	$sp,$sp,48
	lqd	$lr,16($sp)
	lqd	$80,-16($sp)
	bi	$lr
	.size	send_string, .-send_string


# void send_decimal(int value): a minus sign for a value below 0, then its
# digits. There is no division: of each place it takes off what the place is
# worth as often as that goes.
#
#   $80  what is left of the value       $82  the digit of the place
#   $81  address of the place's worth    $83  not 0 once a digit was sent
#   $84  the place's worth               $85  address of the last place's worth
	.align	3
	.global	send_decimal
	.type	send_decimal, @function
send_decimal:
	il	$2,-144
	stqd	$lr,16($sp)
	stqd	$80,-16($sp)
	stqd	$81,-32($sp)
	stqd	$82,-48($sp)
	stqd	$83,-64($sp)
	stqd	$84,-80($sp)
	stqd	$85,-96($sp)
	stqd	$sp,-144($sp)
	a	$sp,$sp,$2
	ori	$80,$3,0
	ilhu	$81,powers@h
	il	$83,0
	iohl	$81,powers@l
	cgti	$5,$3,-1
	ai	$85,$81,36
	brnz	$5,.L11
	# below 0: the distance from 0, which may be 2147483648
	il	$3,45
	sfi	$80,$80,0
	brsl	$lr,send
.L11:
	lqd	$6,0($81)
	rotqby	$84,$6,$81
	il	$82,0
	clgt	$7,$84,$80
	brnz	$7,.L13
.L12:
	sf	$80,$84,$80
	ai	$82,$82,1
	clgt	$8,$84,$80
	brz	$8,.L12
.L13:
	# a zero counts only behind another digit, or in the last place
	ceq	$9,$81,$85
	or	$83,$83,$82
	or	$10,$83,$9
	brz	$10,.L14
	ai	$3,$82,48
	brsl	$lr,send
.L14:
	ceq	$11,$81,$85
	ai	$81,$81,4
	brz	$11,.L11
	il	$2,144
	a	$sp,$sp,$2
	lqd	$lr,16($sp)
	lqd	$80,-16($sp)
	lqd	$81,-32($sp)
	lqd	$82,-48($sp)
	lqd	$83,-64($sp)
	lqd	$84,-80($sp)
	lqd	$85,-96($sp)
	bi	$lr
	.size	send_decimal, .-send_decimal


# void send_hex(unsigned value): its eight hexadecimal digits, all at once. The
# text is made in the frame, at 32($sp).
	.align	3
	.global	send_hex
	.type	send_hex, @function
send_hex:
	stqd	$lr,16($sp)
	stqd	$sp,-48($sp)
	ai	$sp,$sp,-48
	lqa	$4,.LC5
	lqa	$5,.LC6
	# each byte twice; then its high half in the first, its low half in the second
	shufb	$6,$3,$3,$4
	ilh	$7,255
	rothmi	$8,$6,-4
	selb	$9,$8,$6,$7
	andbi	$10,$9,15
	# each half chooses its character; eight of them, then a zero byte
	shufb	$11,$5,$5,$10
	fsmbi	$12,0xff00
	and	$13,$11,$12
	stqd	$13,32($sp)
	ai	$3,$sp,32
	brsl	$lr,send_string
	ai	$sp,$sp,48
	lqd	$lr,16($sp)
	bi	$lr
	.size	send_hex, .-send_hex


# void send_entry(const struct entry *e): its line. The end of the line is sent
# by a jump: it is the last thing to do, so send returns to the caller.
#
#   $80  e, then its value
	.align	3
	.type	send_entry, @function
send_entry:
	stqd	$lr,16($sp)
	stqd	$80,-16($sp)
	stqd	$sp,-48($sp)
	ai	$sp,$sp,-48
	lqd	$4,0($3)
	rotqby	$5,$4,$3
	ori	$3,$5,0
	rotqbyi	$80,$5,4
	brsl	$lr,send_string
	il	$3,61
	brsl	$lr,send
	ori	$3,$80,0
	brsl	$lr,send_decimal
	ila	$3,.LC4
	brsl	$lr,send_string
	ori	$3,$80,0
	brsl	$lr,send_hex
	il	$3,10
	ai	$sp,$sp,48
	lqd	$lr,16($sp)
	lqd	$80,-16($sp)
	br	send
	.size	send_entry, .-send_entry


# int main(void): the lines of all entries, then the count of characters.
#
#   $80  address of the entry    $81  address behind the last one
	.align	3
	.global	main
	.type	main, @function
main:
	stqd	$lr,16($sp)
	stqd	$80,-16($sp)
	stqd	$81,-32($sp)
	stqd	$sp,-64($sp)
	ai	$sp,$sp,-64
	ilhu	$80,entries@h
	ila	$81,entries+32
	iohl	$80,entries@l
.L20:
	ori	$3,$80,0
	brsl	$lr,send_entry
	ai	$80,$80,8
	ceq	$4,$80,$81
	brz	$4,.L20
	lqr	$5,sent
	wrch	$ch28,$5
	il	$3,0
	ai	$sp,$sp,64
	lqd	$lr,16($sp)
	lqd	$80,-16($sp)
	lqd	$81,-32($sp)
	bi	$lr
	.size	main, .-main
	.ident	"examples of Sumnaich"
