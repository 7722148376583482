# Writes the $17 bytes at $16 to standard output.
put:    mov $17,$18
        mov $16,$17
        lda $16,1($31)
        lda $0,4($31)
        callsys
        ret
