# For a script at the top, which sources it: how cargo builds for x86-64 Linux, and how such a program starts, with the kit's clang, lld and C library, so that the
# program is the same on every machine.

# x86_64: fills target/x86-64 with what linking needs, sets `target` (cargo's word for it) and `loader` (the words that start the program), and tells cargo what
# rustc must be told. Status 1, with a line that says why, where something can't be had.
x86_64() {
    local kit work=$PWD/target/x86-64 name flags
    command -v rt >/dev/null || { echo 'x86-64: no rt here: this needs the Rattle kit (its command rt on the PATH)' >&2; return 1; }
    [ "$(uname -m)" = x86_64 ] || { printf 'x86-64: the kit is for x86-64, and this machine is %s\n' "$(uname -m)" >&2; return 1; }
    kit=$(dirname "$(rt doc)")/toolchain
    target=x86_64-unknown-linux-gnu
    loader=("$kit/lib/ld-linux-x86-64.so.2" --library-path "$kit/lib")

    # Copies, since rt ci takes no links.
    mkdir -p "$work/link" && cp -f "$kit/lib/libgcc_s.so.1" "$work/link/libgcc_s.so" && cp -f "$kit/lib/libm.so.6" "$work/link/libm.so" || return 1
    printf 'INPUT("%s/lib/libc.so.6" "%s/lib/libc_nonshared.a" "%s/lib/ld-linux-x86-64.so.2")\n' "$kit" "$kit" "$kit" >"$work/link/libc.so"
    for name in util rt pthread dl; do
        [ -f "$work/link/lib$name.a" ] || "$kit/bin/llvm-ar" rcs "$work/link/lib$name.a" || return 1
    done

    flags=(-C "linker=$kit/bin/clang" -C linker-flavor=gcc -C "link-arg=--target=$target" -C "link-arg=--sysroot=$kit" -C "link-arg=--gcc-toolchain=$kit"
        -C link-arg=-fuse-ld=lld -C "link-arg=-B$kit/lib" -C "link-arg=-L$kit/lib" -C "link-arg=-L$work/link" -C "link-arg=-Wl,--dynamic-linker=/lib64/ld-linux-x86-64.so.2")
    # Cargo's form for words that may have a space in them, as the repository's folder may.
    CARGO_ENCODED_RUSTFLAGS=$(IFS=$'\x1f' && printf '%s' "${flags[*]}")
    export CARGO_ENCODED_RUSTFLAGS
}
