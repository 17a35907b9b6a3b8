# What the scripts here have in common; they read it in.
#
# LIBRARY=FILE      take this archive, in place of building one with rt; it is to be of the header's version
# BEFORE=FILE       time an earlier archive too, in the same run
# BEFORE_NAMES=1    it is of 0.3 or later. One of before has no names, and is called without them (before.h)
# BEFORE_WEEKLY=1   it is of 0.4 or later. One of before keeps more branches in a reclaim
# BEFORE_ROWS=1     it is of 0.5. It has no live disk, and is called without it
# BEFORE_DISK=1     it is of 0.6. Like those before it has branch rows without work orders, and is lent such rows
# BEFORE_ORDERS=1   it is of 0.7 or later, and is called as it is
# SHIFT=BYTES       with BEFORE: where the code lies, a multiple of 16; see below
#
# Needs rt, gcc and, for BEFORE, objcopy and ld (Debian: gcc libc6-dev binutils).
here=$(cd "$(dirname "${BASH_SOURCE[0]}")" && pwd)
root=$(cd "$here/.." && pwd)
build=$root/target/bench
mkdir -p "$build"
if [ -z "${LIBRARY:-}" ]; then
    make -s -C "$root" target/staticlib/libkizmoolet.a >&2
    LIBRARY=$root/target/staticlib/libkizmoolet.a
fi

# An archive linked as they come differs from itself by a fifth and more. So with two of them each function begins at a multiple of
# 4,096, or, with SHIFT, the functions of each follow each other from so many bytes behind a multiple of 4,096 on.
placed() { # ARCHIVE NAME [WORDS OF OBJCOPY]
    local archive=$1 to=$build/$2.o align=${SHIFT:+16}
    shift 2
    objcopy --set-section-alignment ".text*=${align:-4096}" "$@" "$archive" "$to.a"
    ld -r -o "$to" --whole-archive "$to.a"
    printf '.text\n.balign 4096\n.skip %s\n.section .note.GNU-stack,"",@progbits\n' "${SHIFT:-0}" |
        gcc -c -x assembler -Wa,--no-warn -o "$to.pad" -
    archives+=("$to.pad" "$to")
}

archives=()
if [ -n "${BEFORE:-}" ]; then
    renamed=()
    for entry in fresh batch live_read copy_step work_orders; do renamed+=(--redefine-sym "kizmoolet_$entry=before_$entry"); done
    placed "$LIBRARY" now
    placed "$BEFORE" before "${renamed[@]}"
    archives+=(-DBEFORE)
    for has in NAMES WEEKLY ROWS DISK ORDERS; do
        given=BEFORE_$has
        [ -z "${!given:-}" ] || archives+=("-D$given")
    done
else
    archives=("$LIBRARY")
fi

load() { cut -d ' ' -f 1-3 /proc/loadavg; }

# measure NAME [SOURCE..] -- [WORD..]: builds NAME.c with the other sources and the library, runs it with the words, and prints on
# what it ran, and then what it printed.
measure() {
    local name=$1 sources=("$here/$1.c")
    shift
    while [ "$1" != -- ]; do
        sources+=("$here/$1")
        shift
    done
    shift
    gcc -std=gnu11 -O2 -Wall -Wextra -Werror -I"$here" -I"$root/include" -o "$build/$name" "${sources[@]}" "${archives[@]}"
    echo "- Processor: $(sed -n 's/^model name[^:]*: //p' /proc/cpuinfo | head -n 1), $(nproc) cores; $(uname -s) $(uname -m); $(gcc --version | head -n 1), -O2"
    echo "- Load averages (1, 5, 15 minutes) before the run: $(load)"
    "$build/$name" "$@" >"$build/$name.md"
    echo "- and after it: $(load)"
    echo
    cat "$build/$name.md"
}
