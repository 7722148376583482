#!/bin/sh
# Calls the companion of this file's name: bin/alpha-where calls companions/where, beside an installed
# program or in an unpacked archive. Where Python can't do so the status is 70, which no companion has.
file=$(readlink -f -- "$0") || exit 70
name=${file##*/alpha-}
folder=${file%/*}/../lib/bantamtinsel
[ -f "$folder/companions/$name" ] || folder=${file%/*}/..
if ! command -v python3 >/dev/null; then
    echo "alpha-$name: python3 is missing, which the companions need; alpha itself doesn't" >&2
    exit 70
fi
if ! python3 -c 'import sys; sys.exit(sys.version_info < (3, 9))'; then
    echo "alpha-$name: the companions need Python 3.9 or later, and python3 is $(python3 --version)" >&2
    exit 70
fi
exec python3 "$folder/companions/$name" "$@"
