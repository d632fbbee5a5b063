# For a script that stands in the repository's folder and sources it: crates are proved and built, one script at a time, and programs started.
# rt builds a crate in its folder out/, most of which rt ci empties; target/ is the scripts' own.

# with_below NAME: the crates of this repository that NAME stands on, and NAME, one a line.
with_below() {
    local crate
    for crate in $(sed -nE "s/^$1( staticlib)?://p" crates.txt) "$1"; do
        [ ! -d "crates/$crate" ] || printf '%s\n' "$crate"
    done
}

# libraries NAME: those of them that are below it.
libraries() {
    with_below "$1" | sed '$d'
}

# built NAME: the file that is built of a crate; of a library, the one that has the sum of its others.
built() {
    if [ -f "crates/$1/src/main.rt" ]; then
        printf 'crates/%s/out/%s\n' "$1" "$1"
    elif grep -q "^$1 staticlib:" crates.txt; then
        printf 'target/staticlib/lib%s.a\n' "$1"
    else
        printf 'crates/%s/out/rlib/%s.rlib/format\n' "$1" "$1"
    fi
}

# text NAME: a sum of all that the crate's proof rests on: the kit, the list of crates, the files of the crate and of those below it.
text() {
    local crates part folders=()
    mapfile -t crates < <(with_below "$1")
    for part in src specs proofs; do
        folders+=("${crates[@]/%//$part}")
    done
    {
        printf '%s\n' "${kit:=$(rt version)}"
        cat crates.txt HANDLES 2>/dev/null
        (cd crates && find "${folders[@]}" -type f -print0 2>/dev/null | LC_ALL=C sort -z | xargs -0 sha256sum)
    } | sha256sum
}

# proof NAME TEXT: what target/proved/NAME has of a crate that was proved at that text: the text's sum, and that of what was built.
proof() {
    printf '%s\n' "$2"
    sha256sum <"$(built "$1")"
}

# is_proved NAME TEXT: was the crate proved at that text, and is what was built of it still there as it was?
is_proved() {
    [ -f "$(built "$1")" ] && [ -f "target/proved/$1" ] && proof "$1" "$2" | cmp -s - "target/proved/$1"
}

# keep NAME TEXT: notes that the crate was proved at that text, and built.
keep() {
    mkdir -p target/proved && proof "$1" "$2" >"target/proved/$1"
}

# stand NAME..: are these libraries proved, and do they stand as they were built? So ./test finds them behind rt ci, where nothing stood before. rt's other commands
# prove all of them once more there, since they know nothing of rt ci's.
stand() {
    local crate
    for crate in "$@"; do
        is_proved "$crate" "$(text "$crate")" || return 1
    done
}

# compile NAME ROOT TO LIBRARIES TOOLCHAIN WORD..: has the kit's compiler prove and build the crate with that root file over libraries that stand.
compile() {
    local home name=$1 root=$2 to=$3 toolchain=$5 crate words=()
    home=$(dirname "$(rt doc)")
    for crate in $4; do
        words+=(--extern "$crate=crates/$crate/out/rlib/$crate.rlib" -L "dependency=crates/$crate/out/rlib")
    done
    shift 5
    "$home/bin/rattle" build --crate-name "$name" "$root" --extern "std=$home/rlibs/std.rlib" -L "dependency=$home/rlibs" "${words[@]}" \
        --antt-project "$home/rattle/logic/antt-project.json" --logic-built "$home/logic_built" --toolchain "$toolchain" --jobs 2 -o "$to" "$@"
}

# build NAME: proves the crate and those below it and builds it. Says what rt says, and "rt: built" at its end. An archive is for any x86-64 processor, as it isn't
# where rt isn't told.
build() {
    if [ -f "crates/$1/src/main.rt" ]; then
        # rt builds a program only to run it: here on no input, to nowhere.
        (cd "crates/$1" && rt run </dev/null 2>&1 >/dev/null)
    elif [ "$(built "$1")" = "target/staticlib/lib$1.a" ]; then
        mkdir -p target/staticlib
        # shellcheck disable=SC2046  # names of crates
        if stand $(libraries "$1"); then
            echo "rt: chose --jobs 2 for $1"
            compile "$1" "crates/$1/src/lib.rt" "target/staticlib/lib$1.a" "$(libraries "$1")" "$(dirname "$(rt doc)")/toolchain" --crate-type staticlib --cpu x86-64 2>&1 && echo 'rt: built'
        else
            (cd "crates/$1" && rt lib --cpu=x86-64 </dev/null 2>&1) && cp "crates/$1/out/lib$1.a" target/staticlib && echo 'rt: built'
        fi
    else
        (cd "crates/$1" && rt lib </dev/null 2>&1) && echo 'rt: built'
    fi
}

# prove WHO NAME: has the crate and all below it proved and built, where something has changed since. Says as WHO, on standard error, which crate of how many was
# proved; what rt says goes into target/log/WHO.proving, which is named where it fails. Status 1 where a crate isn't proved or nothing can be written.
prove() {
    local who=$1 name=$2 log=target/log/${1##*/}.proving crates sum line crate='' from said='' well='' n
    if ! mkdir -p target/log 2>/dev/null || ! { : >>target/log/lock && : >>"$log"; } 2>/dev/null; then
        printf '%s: "%s" can not be written: what is proved and built goes into its folder target\n' "$who" "$PWD" >&2
        return 1
    fi
    kit=$(rt version)
    sum=$(text "$name")
    ! is_proved "$name" "$sum" || return 0
    # One script at a time, so that none builds what another is building. Of programs that are piped into each other, one waits a moment for the other, and that is not
    # worth a word.
    exec 9>>target/log/lock
    flock -w 3 9 || { printf '%s: waiting for another script that proves here\n' "$who" >&2; flock 9; }
    if is_proved "$name" "$sum"; then
        exec 9>&-
        return
    fi
    mapfile -t crates < <(with_below "$name")
    : >"$log"
    while IFS= read -r line; do
        printf '%s\n' "$line" >>"$log"
        case $line in
            # The first that is said of a crate that has changed, or was never proved.
            'rt: chose --jobs '*)
                crate=${line##* } from=$SECONDS
                [ -n "$said" ] || printf '%s: proving what is new of %s crates; all of them take minutes\n' "$who" ${#crates[@]} >&2
                said=yes
                ;;
            'logic=proved '*) done_with proved ;;
            'rt: running '* | 'rt: built') well=yes ;;
        esac
    done < <(build "$name" 9>&-)
    [ -z "$crate" ] || done_with 'NOT PROVED'
    if [ -z "$well" ]; then
        printf '%s: not all could be proved and built; what rt said is in "%s/%s"\n' "$who" "$PWD" "$log" >&2
    elif [ "$(text "$name")" = "$sum" ]; then
        keep "$name" "$sum"
    fi
    exec 9>&-
    [ -n "$well" ]
}

# done_with WHAT: of prove, of the crate that rt was at.
done_with() {
    for n in "${!crates[@]}"; do
        [ "${crates[n]}" != "$crate" ] || printf '%s: crate %s of %s: %s %s (%s s)\n' "$who" $((n + 1)) ${#crates[@]} "$crate" "$1" $((SECONDS - from)) >&2
    done
    crate=''
}

# start NAME: becomes the built program. STACK=KIB limits its stack.
start() {
    [ -z "${STACK:-}" ] || ulimit -s "$STACK" || exit 1
    exec "crates/$1/out/$1"
}
