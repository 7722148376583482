# Alignment is looked at before regions.
        .code
start:  ldl $1,2($31)
        .entry start
