# Sourced by the scripts of this folder and of examples/callers, in the repository's root: the
# archive of the proved translator, the processor it is for, and the compiler and the emulator for it.
archive=${BENCH_ARCHIVE:-crates/deltawobble/out/libdeltawobble.a}

. bench/tools.sh
asked cargo
need gcc gcc
need readelf binutils

if [ ! -f "$archive" ]; then
    asked rt
    (cd crates/deltawobble && rt lib) >&2
fi

# native: whether the archive is for this machine. cc and emulator make and run programs for it. With BENCH_EMULATED=yes
# it runs under the emulator all the same: bench/instructions then counts as it does on another processor.
case $(readelf -h "$archive" 2>/dev/null | sed -n 's/^ *Machine: *//p' | head -n 1) in
    *X86-64) for_processor=x86_64 ;;
    AArch64) for_processor=aarch64 ;;
    *) echo "$archive is for a processor that this script does not know" >&2; exit 2 ;;
esac
if [ "$for_processor" = "$(uname -m)" ] && [ "${BENCH_EMULATED:-no}" = no ]; then
    native=yes cc=gcc emulator='' static=''
else
    native=no cc=$for_processor-linux-gnu-gcc emulator=qemu-$for_processor static=-static
    need "$cc" "gcc-$(echo "$for_processor" | tr _ -)-linux-gnu"
    # its C library's headers are a package of their own
    echo '#include <stdint.h>' | "$cc" -E - >/dev/null 2>&1 || {
        case $for_processor in x86_64) headers=libc6-dev-amd64-cross ;; *) headers=libc6-dev-arm64-cross ;; esac
        echo "installing $headers for $cc" >&2
        { apt-get update && apt-get install -y --no-install-recommends "$headers"; } >/dev/null
    }
    # the toolchain runs its own programs under an emulator that stands beside its compiler
    kit=$(readlink -f "$(command -v rt)" || true)
    beside=${kit%/bin/rt}/on/$(uname -m)/toolchain/bin/$emulator
    if [ -x "$beside" ]; then emulator=$beside; else need "$emulator" qemu-user; fi
    echo "this machine is $(uname -m), the archive for $for_processor: running it under ${emulator##*/}" >&2
fi

# the host process and the bench program
build_bench() {
    (cd bench && cargo build --release --offline --quiet -j1)
    mkdir -p bench/target
    # -z now: the loader looks up the C library's functions before any call, and not on the stack that is measured
    "$cc" -O2 -Wall -Wextra $static -Wl,-z,now -o bench/target/host bench/host.c "$archive"
    export BENCH_HOST="$emulator bench/target/host"
}
