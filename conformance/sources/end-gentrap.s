# A signal: gentrap is 2.
        .code
start:  nop
        gentrap
        .entry start
