# A signal: bugchk is 1.
        .code
start:  trapb
        bugchk
        .entry start
