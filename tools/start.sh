# What ./alpha and ./look share, and the gate, which notes what the program that it built was made of.
# They set: name, how they are called; is, what their program is; top, this repository; program, its
# path from there; and maker, the script that makes it.
#
# An unpacked archive has the proved program in bin, and PROVED beside it says what it was made of. There
# ./alpha runs that one, and never builds any.
#
# Beside the program stand what it was made of, by contents (.contents) and by dates (.dates), and
# where (.made). Dates are compared first, since that is quick. Where they differ, as in a copy, the
# contents decide.

say() {
    echo "$name: $*" >&2
}

give_up() {
    say "$*"
    exit 70
}

needs_python() {
    command -v python3 >/dev/null || give_up "python3 is missing, which $1 needs"
}

# The sources of all crates, by find with what is given; paths are those from the top.
sources() {
    find crates crates.txt -name out -prune -o \
        -type f \( -name '*.rt' -o -name '*.antt' -o -name crates.txt \) "$@"
}

sum_of_sources() {
    (cd "$top" && sources -print0 | LC_ALL=C sort -z | xargs -0 sha256sum | sha256sum)
}

# The date and the size of each source and of the program.
dates() {
    (cd "$top" && sources -printf '%p %s %T@\n' && find "$program" -printf '%p %s %T@\n')
}

contents() {
    echo "sources $(sum_of_sources)"
    echo "program $(sha256sum <"$top/$program")"
}

# Whether the program is there and was made of the sources as they are. The dates are read before the
# contents, so that a source that is changed meanwhile has another date.
is_fresh() {
    [ -x "$top/$program" ] && dates=$(dates) || return 1
    printf '%s\n' "$dates" | cmp -s - "$top/$program.dates" && return
    contents | cmp -s - "$top/$program.contents" || return 1
    # Where nothing can be written the contents are compared each time.
    (printf '%s\n' "$dates" >"$top/$program.dates") 2>/dev/null || :
}

# Notes that the program was made of the sources as they are, if their sum is still the one given.
note() {
    dates=$(dates)
    [ "$(sum_of_sources)" = "$1" ] || return 0
    made >"$top/$program.made"
    contents >"$top/$program.contents"
    printf '%s\n' "$dates" >"$top/$program.dates"
}

# The commit of the sources, and the kit.
made() {
    echo "commit $(commit crates crates.txt)"
    echo "kit $(rt version)"
}

# The commit, and whether these files are as it has them.
commit() {
    if ! [ -e "$top/.git" ] || ! commit=$(git -C "$top" rev-parse HEAD 2>/dev/null); then
        echo unknown
    elif [ -n "$(git -C "$top" status --porcelain -- "$@" 2>/dev/null)" ]; then
        echo "$commit, and changes that aren't committed"
    else
        echo "$commit"
    fi
}

version() {
    echo "version $(cat "$top/VERSION")"
    if is_packed; then
        sed -n '/^commit /p; /^kit /p' "$top/PROVED"
        echo "program $is"
        return
    fi
    if ! [ -x "$top/$program" ] || ! [ -f "$top/$program.made" ]; then
        echo "no program yet: the first call makes it"
        return
    fi
    cat "$top/$program.made"
    echo "program $is"
    is_fresh || echo "the sources are others now: the next call makes it anew"
}

make() {
    needs_python "the making of the program"
    sum=$(sum_of_sources)
    python3 "$top/$maker" </dev/null >&2 || exit 70
    note "$sum"
}

is_packed() {
    [ "$name" != look ] && [ -f "$top/PROVED" ]
}

# What PROVED says of a word.
proved() {
    sed -n "s/^$1 //p" "$top/PROVED"
}

# Ends where the program of the archive can't run here, or isn't the one that was proved.
hold_packed() {
    system=$(uname -sm)
    [ "$system" = "Linux x86_64" ] || give_up "the program is one for Linux on x86-64, and this is $system"
    [ "$(sha256sum <"$top/bin/alpha")" = "$(proved program)  -" ] ||
        give_up "$top/bin/alpha isn't the program that PROVED names: unpack the archive anew"
    needed=$(proved needs)
    has=$(getconf GNU_LIBC_VERSION 2>/dev/null)
    case $has in "glibc "*) ;; *) has="another C library" ;; esac
    # What is older stands before, and so does another library.
    [ "$(printf '%s\n' "$needed" "$has" | LC_ALL=C sort -V | head -n 1)" = "$needed" ] ||
        give_up "the program needs $needed or later, and here is $has"
}

start() {
    case ${1-help} in
    help | --help | -h)
        needs_python help
        [ $# -eq 0 ] || shift
        exec python3 "$top/tools/usage.py" "$name" "$@"
        ;;
    --version)
        version
        exit
        ;;
    --) shift ;;
    esac
    if is_packed; then
        hold_packed
        exec "$top/bin/alpha" "$@"
    fi
    is_fresh || make
    exec "$top/$program" "$@"
}
