# The greatest number, and 1 added into its own source. It overflows. `run` completes it on the
# spot; where the trap comes late the source is gone. lost.choices is how it goes wrong.
start:  lda $1,-1($31)
        srl $1,1,$1
        lda $2,1($31)
        addq/v $1,$2,$1
        trapb
        mov $1,$16              # exit($1)
        lda $0,1($31)
        callsys
        .entry start
