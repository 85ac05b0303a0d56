# bench/common.sh: what bench/run and bench/peers/run share. The script that reads it has set `top`,
# the repository, and `work`, the folder for what it builds. It sets:
#   sources   the folder of the sources of the crate iset 0.3.3, from $ISET_SRC, else from
#             ../shared/docs/src beside the repository; empty if they are not there
#   rustc, gcc, gxx   compilers that write x86-64 code
#   target    rustc's option for that; empty on x86-64
#   emulator  the program that runs x86-64 code; empty on x86-64
#   handler   rustc's options for an archive that allocates without std
#   no_error  rustc's option for bindings/rust
# On x86-64 the compilers are the machine's. On Arm they are those of Debian's packages rustc,
# libstd-rust-dev:amd64, gcc-x86-64-linux-gnu, g++-x86-64-linux-gnu and libc6-dev-amd64-cross, and
# the emulator is the kit's.
sources=${ISET_SRC:-$top/../shared/docs/src}
[ ! -f "$sources/src/lib.rs" ] || sources=$sources/src
[ -f "$sources/lib.rs" ] || sources=
if [ "$(uname -m)" = x86_64 ]; then
    rustc=rustc gcc=gcc gxx=g++ target= emulator=
else
    rustc=/usr/bin/rustc gcc=x86_64-linux-gnu-gcc gxx=x86_64-linux-gnu-g++ target='--target x86_64-unknown-linux-gnu'
    emulator=$(dirname "$(rt doc)")/toolchain/bin/qemu-x86_64
fi

# Prints what of the given tools is not here: its name, or for a rustc without its library for
# x86-64 the name of Debian's package for that. Prints nothing if all are here.
lacking() {
    local tool
    for tool; do
        if ! command -v "$tool" >/dev/null; then
            echo "${tool##*/}"
        elif [ "$tool" = "$rustc" ] && [ ! -d "$("$rustc" $target --print target-libdir)" ]; then
            echo libstd-rust-dev:amd64
        fi
    done
}

# A rustc before 1.68, as Debian's is, takes an archive that allocates without std only if the
# archive has its own handler of allocation errors. A rustc before 1.81 has no core::error.
handler= no_error=
if [ -z "$(lacking "$rustc")" ]; then
    rust_version=$("$rustc" --version | sed 's/^rustc 1\.\([0-9]*\).*/\1/')
    if [ "$rust_version" -lt 68 ]; then
        export RUSTC_BOOTSTRAP=1
        handler='--cfg alloc_handler -Z crate-attr=feature(alloc_error_handler)'
    fi
    [ "$rust_version" -ge 81 ] || no_error='--cfg iset_no_core_error'
fi

# Compiles Rust for release: rustc's arguments.
build() { "$rustc" $target -C opt-level=3 -C panic=abort -C codegen-units=1 --cap-lints allow --out-dir "$work" -L "$work" "$@"; }

# Writes $work/pad.o, which takes that many bytes of code and 16 more. Under the emulator the place
# of a loop in the program changes its time. So the library, which is linked after the pad, is
# measured in several places.
pad() {
    printf '.text\n.skip %s\n.section .note.GNU-stack,"",@progbits\n' "$(($1 + 16))" >"$work/pad.s"
    "$gcc" -c "$work/pad.s" -o "$work/pad.o"
}

# Says on what the ratios were measured: the number of places.
measured_on() {
    if [ -z "$emulator" ]; then
        echo "native x86-64, places in the program: $1"
    else
        echo "x86-64 code under the kit's emulator, places in the program: $1"
    fi
}
