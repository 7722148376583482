# refused.s repaired: the sum goes to another register, and is moved behind the
# barrier. `check` accepts it.
start:  addq/v $1,$2,$3
        trapb
        mov $3,$1
        callsys
        .entry start
