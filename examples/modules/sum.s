# $16 becomes $17 + $18. The barrier keeps the shadow of the addition within the module.
sum:    addq/v $17,$18,$16
        trapb
        ret
