# A return to address 0, which $26 has at the start.
        .code
start:  trapb
        ret
        .entry start
