# A store of 2 bytes at an odd address.
        .code
start:  stw $1,-3($30)
        .entry start
