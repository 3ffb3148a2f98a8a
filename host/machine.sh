# What differs between machines, for the scripts to source. The library and the proved program are x86-64 code: another
# machine cross-compiles what links the library, with Debian's packages, and runs it under an emulator.
machine=$(uname -m)

# Runs a command and shows what it said only where it fails; wants target/host.
quietly() { "$@" >target/host/last.log 2>&1 || { cat target/host/last.log; exit 1; }; }

# cc, cxx: the compilers. run_proved, run: the words before a proved program, and before a program that links the library.
# linked_cargo: cargo for the crates that link it; out: where in its target folder their programs are.
if [ "$machine" = x86_64 ]; then
    cc=cc cxx=c++ run_proved='' run='' out=release
    linked_cargo() { cargo "$@"; }
else
    cc=x86_64-linux-gnu-gcc cxx=x86_64-linux-gnu-g++ out=x86_64-unknown-linux-gnu/release
    tools=$(rt doc)
    tools=${tools%/docs/*}/on/$machine/toolchain
    # As rt runs a program, so that ./replay needs the kit alone.
    run_proved="$tools/bin/qemu-x86_64 $tools/lib/ld-linux-x86-64.so.2 --library-path $tools/lib"
    # Debian's: the kit's emulator breaks down over /proc/self/maps, which a Rust program reads when it starts.
    run=qemu-x86_64
    # Debian's Rust, as it has std for x86-64; an example in documentation is run across machines only if the last two are set.
    linked_cargo() {
        RUSTC=/usr/bin/rustc RUSTDOC=/usr/bin/rustdoc CARGO_BUILD_TARGET=x86_64-unknown-linux-gnu \
            CARGO_TARGET_X86_64_UNKNOWN_LINUX_GNU_LINKER=$cc CARGO_TARGET_X86_64_UNKNOWN_LINUX_GNU_RUNNER=$run \
            RUSTC_BOOTSTRAP=1 CARGO_UNSTABLE_DOCTEST_XCOMPILE=true /usr/bin/cargo "$@"
    }
fi

# Notes the package of a command or file that is not there.
want() { command -v "$1" >/dev/null || [ -e "$1" ] || missing="$missing $2"; }

# Installs what the tests need and the machine lacks.
install_missing() {
    missing=''
    want cargo cargo
    want cc 'gcc libc6-dev'
    if [ "$machine" = x86_64 ]; then
        want c++ g++
        want valgrind valgrind
    else
        want /usr/bin/cargo cargo
        want $cc gcc-x86-64-linux-gnu
        want $cxx g++-x86-64-linux-gnu
        want $run qemu-user
        want /usr/lib/rustlib/x86_64-unknown-linux-gnu libstd-rust-dev:amd64
        want /usr/lib/x86_64-linux-gnu/libstdc++.so.6 libstdc++6:amd64
    fi
    [ -n "$missing" ] || return 0
    [ "$machine" = x86_64 ] || quietly dpkg --add-architecture amd64
    apt-get update >target/host/last.log 2>&1 || true # an old list may serve; the next line finds out
    quietly env DEBIAN_FRONTEND=noninteractive apt-get install -y --no-install-recommends $missing
}
