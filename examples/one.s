.text
.global main
.type main,@function
main:
stqd $0,16($1)
ai $1,$1,-32
lqr $3,five
brsl $0,twice
wrch 28,$3
ai $1,$1,32
lqd $0,16($1)
bi $0
.size main,.-main
.type twice,@function
twice:
a $3,$3,$3
bi $0
.size twice,.-twice
.data
.align 4
five:
.word 5
