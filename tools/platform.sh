# Sourced by scripts. The archive and the programs that rt builds are for x86-64. There, this sets nothing; on another processor it names what builds
# for x86-64 and what runs it, for C, C++ and cargo. A variable that is set already stays as it is. tools/cross_setup installs what is named here.
if [ "$(uname -m)" != x86_64 ]; then
    export FENHAMPER_EMULATOR="${FENHAMPER_EMULATOR:-qemu-x86_64}"
    export CC="${CC:-x86_64-linux-gnu-gcc}" CXX="${CXX:-x86_64-linux-gnu-g++}" AR="${AR:-x86_64-linux-gnu-ar}" NM="${NM:-x86_64-linux-gnu-nm}"
    export OBJDUMP="${OBJDUMP:-x86_64-linux-gnu-objdump}"
    export CARGO_BUILD_TARGET=x86_64-unknown-linux-gnu
    export CARGO_TARGET_X86_64_UNKNOWN_LINUX_GNU_LINKER="$CC" CARGO_TARGET_X86_64_UNKNOWN_LINUX_GNU_RUNNER="$FENHAMPER_EMULATOR"
    # Debian's Rust compiler where it has x86-64's standard library, else the one on PATH
    if [ -z "${RUSTC:-}" ] && [ -d "/usr/lib/rustlib/$CARGO_BUILD_TARGET" ]; then
        export RUSTC=/usr/bin/rustc RUSTDOC=/usr/bin/rustdoc
    fi
fi
