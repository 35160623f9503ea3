# What the scripts at the root share: each runs the program of one crate, and builds it first where it has to.
#
# A program is kept under the name CRATE-SOURCES-TOOLCHAIN: a sum of the lines in crates.txt and of the files of the crate
# and of those below it, and one of the toolchain's version. So what has the name is current, whatever the times of files
# say. With `-proved` behind it it is the program that the gate or `rt run` proved; else an unproved build, which checks as
# it runs. The archive of the library for C, which is always proved, is kept likewise.
#
# They are kept in out/, or in the user's cache where the checkout can't be written to. Where `rt` isn't in the path, a
# program that was kept of these sources is run, whichever toolchain made it; else the one that was released in dist/.

# The checkout, and where programs are kept if that can't be written to: all that the functions share.
root=$(dirname -- "$(dirname -- "$(readlink -f -- "${BASH_SOURCE[0]}")")")
cache=${XDG_CACHE_HOME:-${HOME:-}/.cache}/etagere

say() {
    printf '%s: %s\n' "${0##*/}" "$1" >&2
}

give_up() {
    say "$1"
    exit 70
}

has_toolchain() {
    command -v rt > /dev/null
}

# Prints a sum of the toolchain's version, which stands in a file: `rt` takes a third of a second. Without a toolchain
# that is a pattern for any.
toolchain_sum() {
    local rt
    has_toolchain || { echo '*' && return; }
    rt=$(readlink -f -- "$(command -v rt)")
    { cat -- "${rt%/bin/rt}/KIT-ID" 2> /dev/null || rt version; } | sha256sum | cut -c 1-8
}

# Prints the crate $1 and those of the repository below it, each once.
with_those_below() {
    awk -F '[: ]+' -v crate="$1" '
        !/^#/ && NF { needs[$1] = $0 }
        END {
            queue[last = 1] = crate
            seen[crate] = 1
            for (at = 1; at <= last; at++) {
                print queue[at]
                count = split(needs[queue[at]], names)
                for (k = 1; k <= count; k++)
                    if (names[k] in needs && !seen[names[k]]++) queue[++last] = names[k]
            }
        }' "$root/crates.txt"
}

# Prints a sum of what the program of the crate $1 is made of.
sources_sum() {
    local name folder names paths=()
    names=$(with_those_below "$1" | LC_ALL=C sort -u)
    for name in $names; do
        for folder in src specs proofs; do
            [[ ! -d $root/crates/$name/$folder ]] || paths+=("crates/$name/$folder")
        done
    done
    (
        cd -- "$root" || exit
        awk -F '[: ]+' 'NR == FNR { names[$1]; next } $1 in names' <(echo "$names") crates.txt | LC_ALL=C sort
        find "${paths[@]}" -type f -print0 | LC_ALL=C sort -z | xargs -0 sha256sum
    ) | sha256sum | cut -c 1-32
}

# Prints the name under which the program of the crate $1 is kept.
name_of() {
    echo "$1-$(sources_sum "$1")-$(toolchain_sum)"
}

# Prints the path of the kept program or archive of this name, in which a pattern may stand, if there is one.
kept() {
    local file
    # The name is left to be expanded, for its pattern.
    # shellcheck disable=SC2231
    for file in "$root/out"/$1 "$cache"/$1; do
        [[ ! -f $file ]] || { echo "$file" && return; }
    done
}

# Prints the path of the released program of the crate $1, and says which version it is and whether of these sources.
released() {
    local name=bin/${1%_cli} made=$root/dist/MADE_OF sources=other
    [[ -x $root/dist/$name && -f $made ]] || return 0
    ! grep -qxF -- "$name $(sources_sum "$1")" "$made" || sources=these
    say "runs the released program, $(head -n 1 -- "$made"), made of $sources sources: rt isn't in PATH"
    echo "$root/dist/$name"
}

# Prints a folder where programs can be kept.
folder_to_keep_in() {
    local folder
    for folder in "$root/out" "$cache"; do
        mkdir -p -- "$folder" 2> /dev/null || continue
        [[ ! -w $folder ]] || { echo "$folder" && return; }
    done
    give_up "neither $root/out nor $cache can be written to"
}

# Keeps the file $1 under the name $2, and removes programs of the crate $3 that are older than a day.
keep() {
    local folder
    folder=$(folder_to_keep_in) || return
    cp -- "$1" "$folder/$2.$$"
    mv -f -- "$folder/$2.$$" "$folder/$2"
    find "$folder" -maxdepth 1 -name "$3-*" ! -name "$2*" -mmin +1440 -delete
}

# Whether `rt run` left a program of the crate $1 made of its files as they are: its stamp holds the toolchain's own
# sum of these, with the arguments and the status that it is run for, and that of the program.
is_left_by_run() {
    local made=$root/crates/$1/out/$1 sum
    [[ -x $made && -f $made.stamp ]] && has_toolchain || return 1
    sum=$(
        python3 -B - "$(dirname -- "$(rt doc)")/bin/rt" "$root/crates/$1" "$root" 2> /dev/null << 'END'
import sys
from importlib.machinery import SourceFileLoader
from importlib.util import module_from_spec, spec_from_loader
loader = SourceFileLoader("rt", sys.argv[1])
rt = module_from_spec(spec_from_loader("rt", loader))
loader.exec_module(rt)
crate = rt.rtlib.Crate(*sys.argv[2:], {})
rt.read_files(crate)
print(crate.stamp())
END
    ) || return 1
    [[ $(< "$made.stamp") == "$sum$(sha256sum < "$made" | cut -d ' ' -f 1)" ]]
}

# Makes a copy of the toolchain $1 by links in the folder $2/kit, but for two programs. `rt try` keeps no program, so in
# the place of clang stands a script: asked to compile a module with checks, it copies that to $2/module.bc and stops,
# and all else it leaves to the toolchain's own. In the place of the prover, which would look beside it for names that
# a check refuses, and take as long again, stands one that does nothing.
make_kit() {
    local kit=$1 room=$2 file
    mkdir -p -- "$room/kit/bin" "$room/kit/toolchain/bin"
    for file in "$kit"/* "$kit"/bin/* "$kit"/toolchain/* "$kit"/toolchain/bin/*; do
        [[ -e $room/kit/${file#"$kit/"} ]] || ln -s -- "$file" "$room/kit/${file#"$kit/"}"
    done
    rm -- "$room/kit/bin/rt" "$room/kit/bin/rtlib.py" "$room/kit/bin/rattle" "$room/kit/toolchain/bin/clang"
    cp -- "$kit/bin/rt" "$kit/bin/rtlib.py" "$room/kit/bin/"
    ln -s -- "$(command -v false)" "$room/kit/bin/rattle"
    ln -s -- "$kit" "$room/whole"
    cat > "$room/kit/toolchain/bin/clang" << 'END'
#!/usr/bin/env bash
room=${0%/kit/toolchain/bin/clang}
[[ " $* " != *" -fsanitize="* ]] || { cp module.bc "$room/"; exit 1; }
exec "$room/whole/toolchain/bin/clang" "$@"
END
    chmod +x -- "$room/kit/toolchain/bin/clang"
}

# Makes the file $2 in the folder $1 by the other arguments, and gives up with what these said where it doesn't.
make_by() {
    local room=$1 file=$2
    shift 2
    "$@" < /dev/null > "$room/said" 2>&1 &
    trap 'kill $! 2> /dev/null; wait; exit 130' INT TERM HUP
    wait $! || true
    trap - INT TERM HUP
    [[ -s $room/$file ]] || { cat -- "$room/said" >&2 && give_up "the program can't be built"; }
}

# Leaves out the checks that only unsafe code can fail, and programs have none of their own: that an address is aligned,
# that a sum of addresses doesn't wrap, and that a byte is a value of its type. With these in the way moves in long lists
# go one by one, at up to 40 times the cost.
without_checks_of_unsafe_code() {
    grep -vE 'call void @"rattle-llvm-checks::(Alignment|Offset|Value)"'
}

# Builds the program of the crate $1 under the name $2, without proof. It is a shell of its own, so that its folder goes
# with it.
build() (
    kit=$(dirname -- "$(rt doc)")
    room=$(mktemp -d -- "$(folder_to_keep_in)/build-XXXXXX")
    trap 'rm -rf -- "$room"' EXIT
    say "builds the program from its sources, without proof, which takes about half a minute, once"
    make_kit "$kit" "$room"
    clang=("$kit/toolchain/bin/clang" --target=x86_64-unknown-linux-gnu --sysroot="$kit/toolchain" --no-default-config)
    make_by "$room" module.bc env -C "$root/crates/$1" "$room/kit/bin/rt" try
    make_by "$room" module.ll "${clang[@]}" \
        -S -emit-llvm -Xclang -disable-llvm-passes -x ir "$room/module.bc" -o "$room/module.ll"
    without_checks_of_unsafe_code < "$room/module.ll" > "$room/checked.ll"
    make_by "$room" module.o "${clang[@]}" -mllvm -no-trap-after-noreturn -mllvm -trap-unreachable \
        -c -x ir "$room/checked.ll" -o "$room/module.o" -fPIE -O2
    make_by "$room" program "$kit/bin/rattle-link" \
        --target x86_64-unknown-linux-gnu --toolchain "$kit/toolchain" \
        -o "$room/program" "$room/module.o" "$kit/c/libos_c.a" "$kit/c/liblibc_c.a"
    keep "$room/program" "$2" "$1"
)

# Prints the path of the program of the crate $1: the proved one if it is there, else an unproved one, which is built
# where it has to be, or the released one where that can't be.
program_of() {
    local crate=$1 name program
    name=$(name_of "$crate")
    program=$(kept "$name-proved")
    if [[ -z $program ]] && is_left_by_run "$crate"; then
        keep "$root/crates/$crate/out/$crate" "$name-proved" "$crate"
        program=$(kept "$name-proved")
    fi
    program=${program:-$(kept "$name")}
    if [[ -z $program ]] && ! has_toolchain; then
        program=$(released "$crate")
        [[ -n $program ]] || give_up "no program is kept of these sources or released, and the toolchain's rt isn't in PATH"
    elif [[ -z $program ]]; then
        build "$crate" "$name" || exit
        program=$(kept "$name")
    fi
    echo "$program"
}

# Prints a folder with the library of these sources: the one that ETAGERE_LIB_DIR names, else that of dist/ where it is
# of these sources, else $1, where the one is put that was kept of these sources, or else a new one. Without a toolchain
# it is dist/ in any case.
library_folder() {
    if [[ -n ${ETAGERE_LIB_DIR-} ]]; then
        echo "$ETAGERE_LIB_DIR"
    elif grep -qxF -- "lib/libetagere.a $(sources_sum etagere_c)" "$root/dist/MADE_OF" 2> /dev/null; then
        echo "$root/dist/lib"
    elif has_toolchain; then
        "$root/tool/release" --archive "$1" && echo "$1"
    else
        say "tries the released library, which is of other sources: rt isn't in PATH"
        echo "$root/dist/lib"
    fi
}

# Runs the program of the crate $1 with the other arguments, in place of this script and under its name.
run_program() {
    local crate=$1 program
    shift
    program=$(program_of "$crate") || exit
    [[ ! -t 0 || ($# != 0 && $* != check) ]] || say "reads standard input, up to its end"
    exec -a "$0" "$program" "$@"
}
