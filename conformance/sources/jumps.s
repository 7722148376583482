# The four jumps: the two low bits of the target are cleared, and it is read before the next address is left.
        .code
start:  ldah $1,%hi(first)($31)
        lda $1,%lo(first)($1)
        jmp $2,($1),0
        gentrap
first:  trapb
        lda $1,28($1)           # second
        bis $1,1,$1
        jsr $26,($1),77
        gentrap
        gentrap
        gentrap
second: trapb
        addq $1,23,$1           # third, 4 * 6 bytes further, with the low bits 0 and then 3
        addq $1,3,$3
        ret $4,($3),1
        gentrap
        gentrap
third:  trapb
        bic $3,3,$3
        addq $3,22,$3           # fourth, and 2
        jsr_coroutine $3,($3),16383
        gentrap
fourth: trapb
        addq $3,36,$27          # fifth
        jsr $27,($27)
        gentrap
        gentrap
        gentrap
        gentrap
        gentrap
fifth:  trapb
        addq $27,52,$26         # sixth
        ret
        gentrap
        gentrap
        gentrap
        gentrap
        gentrap
sixth:  trapb
        mov $26,$16
        lda $0,1($31)
        callsys
        .entry start
