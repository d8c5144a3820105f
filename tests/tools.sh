# shellcheck shell=sh
# What the tests need beside the kit: found on the host, or fetched from Debian's packages. To be sourced, with `root` set to the
# repository. Each need_* function sets the variables that its comment names and returns 0, or says in one line on
# standard error what can't be had and returns 1. Each variable is one word, so quote it: "$CC_X86" -o x x.c.
# What the host has is used and no network is touched. What it lacks is installed where this runs as root; else, or where that
# fails, it is unpacked into tools/ and used from there.

tools_dir=$root/tools
tools_machine=$(uname -m)
case $tools_machine in
x86_64) tools_arch=amd64 ;;
aarch64) tools_arch=arm64 ;;
*) tools_arch=$tools_machine ;;
esac

tools_say() { printf 'tools: %s\n' "$*" >&2; }
tools_has() { command -v "$1" >/dev/null 2>&1; }

# Fetching

# apt-get with a state of its own, so that nothing of the host is changed and no rights are needed. What the host has counts as
# there, unless tools_status names another list. The second architecture is for an x86-64 standard library on another host.
tools_apt() {
    mkdir -p "$tools_dir/apt/lists/partial" "$tools_dir/apt/cache/archives/partial" || return 1
    apt-get -q -y -o Dir::State="$tools_dir/apt" -o Dir::State::status="${tools_status:-/var/lib/dpkg/status}" -o Dir::Cache="$tools_dir/apt/cache" \
        -o APT::Architecture="$tools_arch" -o APT::Architectures::="$tools_arch" -o APT::Architectures::=amd64 \
        -o APT::Sandbox::User=root -o Debug::NoLocking=1 -o Acquire::Retries=2 "$@"
}

tools_apt_host() { DEBIAN_FRONTEND=noninteractive apt-get -q -y -o DPkg::Lock::Timeout=300 -o Acquire::Retries=2 "$@"; }

# Runs an apt-get command; where it fails, once more with new package lists. What it says goes to tools/apt.log.
tools_twice() { # tools_apt|tools_apt_host WORDS..
    "$@" >>"$tools_dir/apt.log" 2>&1 && return
    "$1" update >>"$tools_dir/apt.log" 2>&1
    "$@" >>"$tools_dir/apt.log" 2>&1
}

# Makes the folder tools/bin.
tools_folder() {
    mkdir -p "$tools_dir/bin" 2>/dev/null && [ -w "$tools_dir/bin" ] || { tools_say "the folder $tools_dir can't be made or written"; return 1; }
}

tools_can_fetch() { # PACKAGES
    tools_folder || return 1
    tools_has apt-get && tools_has dpkg-deb || { tools_say "missing: $1; and there is no apt-get to fetch it from Debian's packages"; return 1; }
    mkdir -p "$tools_dir/apt" && true >"$tools_dir/apt.log"
}

tools_unpack() { # DIR: every package of the folder DIR/debs into DIR/tree
    for deb in "$1"/debs/*.deb; do
        dpkg-deb -x "$deb" "$1/tree" >>"$tools_dir/apt.log" 2>&1 || return 1
    done
    rm -rf "$1/debs" "$tools_dir/apt/cache/archives"
    tools_without_links "$1/tree"
}

# Puts in the place of each link what it leads to, and takes away one that leads nowhere or to a folder that it stands in: `rt ci` refuses a
# checkout in which there is a link, wherever it is. So packages are unpacked outside it, and moved there without links.
tools_without_links() { # TREE
    find "$1" -type l | while IFS= read -r link; do
        [ -L "$link" ] || continue
        to=$(readlink -f -- "$link")
        case $(readlink -- "$link") in /*) [ ! -e "$1$(readlink -- "$link")" ] || to=$(readlink -f -- "$1$(readlink -- "$link")") ;; esac
        rm -f "$link"
        case ${link%/*}/ in
        "$to"/*) ;;
        *) [ ! -e "$to" ] || cp -RL -- "$to" "$link" 2>/dev/null || : ;;
        esac
    done
    find "$1" -type l -exec rm -f {} +
}

# Unpacks packages, and all that they rest on and the host lacks, into tools/NAME/tree. A compiler looks for its own parts, headers and
# libraries from where it stands, so that the host's are of no use to it: of those only the run-time libraries are left out,
# which any host with apt-get has.
tools_unpacked() { # NAME PACKAGE..
    into=$tools_dir/$1
    shift
    part=$(mktemp -d) && rm -rf "$into" "$tools_dir/apt/cache/archives"
    mkdir -p "$part/debs" "$part/tree" || return 1
    case $into in
    *-x86)
        tools_status=$tools_dir/apt/nothing
        true >"$tools_status"
        ;;
    esac
    tools_twice tools_apt --download-only --no-install-recommends install "$@"
    got=$?
    tools_status=
    [ $got -eq 0 ] && cp "$tools_dir"/apt/cache/archives/*.deb "$part/debs/" 2>/dev/null || {
        rm -rf "$part"
        return 1
    }
    rm -f "$part"/debs/libc6_* "$part"/debs/libgcc-s1_* "$part"/debs/libstdc++6_*
    tools_unpack "$part" && mv "$part" "$into" && chmod 755 "$into"
}

# Has packages installed or unpacked.
tools_fetch() { # NAME PACKAGE..
    what=$1
    shift
    tools_can_fetch "$*" || return 1
    if [ "$(id -u)" = 0 ]; then
        tools_say "installing $*"
        tools_twice tools_apt_host install --no-install-recommends "$@" && return
    fi
    tools_say "unpacking $* into $tools_dir/$what"
    tools_unpacked "$what" "$@" && return
    tools_say "missing: $*; and it could not be fetched ($tools_dir/apt.log says why)"
    return 1
}

# Writes tools/bin/NAME, which runs a program of the unpacked packages with their libraries. It finds them from its own
# place, so that the repository may be moved.
tools_wrap() { # PACKAGES PROGRAM [WORDS, in which $at is the packages' folder]
    tools_folder || return 1
    cat >"$tools_dir/bin/$2" <<WRAPPER
#!/bin/sh
at=\$(dirname -- "\$(readlink -f -- "\$0")")/../$1/tree
lib=\$at/usr/lib/$tools_machine-linux-gnu
LD_LIBRARY_PATH=\$lib:\$lib/wireshark:\$at/lib/$tools_machine-linux-gnu
WIRESHARK_DATA_DIR=\$at/usr/share/wireshark
export LD_LIBRARY_PATH WIRESHARK_DATA_DIR
exec "\$at/usr/bin/$2" ${3-} "\$@"
WRAPPER
    chmod +x "$tools_dir/bin/$2"
}

# Prints the path of a program: the host's, or that of the unpacked packages.
tools_path() { # PROGRAM PACKAGES
    if tools_has "$1"; then command -v "$1"
    elif [ -x "$tools_dir/$2/tree/usr/bin/$1" ] && [ -x "$tools_dir/bin/$1" ]; then echo "$tools_dir/bin/$1"
    else return 1
    fi
}

# The kit

# Whether there is an `rt` on the PATH, it is a Rattle kit's, because other programs have that name too, and its logic is the pinned one,
# because another logic proves other statements. Where not, prints why.
tools_rattle() {
    tools_install="install the Rattle kit ($(cat "$root/kit.txt")) and put its bin/ first on the PATH"
    tools_has rt || { printf '%s\n' "there is no 'rt' on the PATH: $tools_install"; return 1; }
    # Whatever it is, it may wait for an answer or for a server.
    tools_said=$(timeout 30 rt version 2>&1 </dev/null) && case $tools_said in *' logic '[0-9a-f]*) tools_pinned; return ;; esac
    tools_said=$(printf '%s' "$tools_said" | head -n 1 | LC_ALL=C tr -cd '[:print:]' | cut -c 1-100)
    printf '%s\n' "this rt is no Rattle kit, or one that does not work here (it is $(command -v rt); it said: ${tools_said:-nothing}): $tools_install"
    return 1
}

# Whether what rt said of itself has the logic that kit.txt pins. Where not, prints why.
tools_pinned() {
    tools_pin=$(cat "$root/kit.txt")
    [ "${tools_said##* logic }" != "${tools_pin##* logic }" ] || return 0
    printf '%s\n' "the kit's logic is '${tools_said##* logic }', and kit.txt pins '${tools_pin##* logic }': install the kit '${tools_pin%% *}', or prove everything anew under this one and change kit.txt"
    return 1
}

# KIT: the kit's folder, in which the page that `rt doc` names stands. KIT_TOOLS: that of its compiler and its C library.
need_kit() {
    tools_words=$(tools_rattle) || { tools_say "$tools_words"; return 1; }
    KIT=$(rt doc) || return 1
    KIT=${KIT%/*}
    KIT_TOOLS=$KIT/toolchain
    "$KIT_TOOLS/bin/clang" --version >/dev/null 2>&1 || { tools_say "the kit at $KIT has no compiler for this machine, $tools_machine"; return 1; }
}

# RUN_X86: the command that runs an x86-64 program that is linked statically. The kit is for x86-64 alone, and has no emulator.
need_run() {
    need_kit || return 1
    case $tools_machine in
    x86_64) RUN_X86=env ;;
    *)
        RUN_X86=$(command -v qemu-x86_64) || { tools_say "there is no qemu-x86_64 here, and this machine is $tools_machine"; return 1; }
        ;;
    esac
}

# What is made is for every x86-64 processor, as include/ax25.h says of the archive; the kit's own choice is those of 2009 and later.
rt_cpu=--cpu=x86-64

# Has rt prove a crate that is an archive and make it. A copy stays as target/staticlib/libNAME.a: `rt ci` takes rt's own away.
tools_archive() { # CRATE NAME
    (cd "$root/crates/$1" && rt lib "$rt_cpu") || return 1
    mkdir -p "$root/target/staticlib" && cp "$root/crates/$1/out/lib$1.a" "$root/target/staticlib/lib$2.a"
}

# Runs a program that is linked to a C library by the kit's own one, as rt runs the programs that it makes. After need_run.
run_linked() { "$RUN_X86" "$KIT_TOOLS/lib/ld-linux-x86-64.so.2" --library-path "$KIT_TOOLS/lib" "$@"; }

# NM, OBJDUMP, OBJCOPY, READELF, SIZE: LLVM's, which the kit's compiler is too when it is called by their names. Links would do as well, but
# `rt ci` refuses a checkout with one.
need_llvm() {
    need_kit && need_python && tools_folder || return 1
    for tool in nm objdump objcopy readelf size; do
        [ ! -L "$tools_dir/bin/llvm-$tool" ] || rm -f "$tools_dir/bin/llvm-$tool"
        cat >"$tools_dir/bin/llvm-$tool" <<WRAPPER || return 1
#!/bin/sh
exec "$PYTHON" -ISc 'import os, sys; os.execv(sys.argv[1], sys.argv[2:])' "$KIT_TOOLS/bin/clang" llvm-$tool "\$@"
WRAPPER
        chmod +x "$tools_dir/bin/llvm-$tool" || return 1
    done
    NM=$tools_dir/bin/llvm-nm OBJDUMP=$tools_dir/bin/llvm-objdump OBJCOPY=$tools_dir/bin/llvm-objcopy READELF=$tools_dir/bin/llvm-readelf SIZE=$tools_dir/bin/llvm-size
    "$NM" --version >/dev/null 2>&1 || { tools_say "the kit's compiler is not llvm-nm, llvm-objdump, llvm-objcopy, llvm-readelf and llvm-size too"; return 1; }
}

# Compilers

# Whether a compiler links a static x86-64 program from C, or makes an object for one from C++: Debian's cross C++ compiler
# links no static program, because its libm.a names a file that only an amd64 host has. The C compiler links such objects.
tools_makes() { # COMPILER c|c++
    case $("$1" -dumpmachine 2>/dev/null) in x86_64*) ;; *) return 1 ;; esac
    probe=$(mktemp -d) || return 1
    printf '#include <stdio.h>\nint main(void) { return puts("") < 0; }\n' >"$probe/probe.c"
    case $2 in
    c) "$1" -static -o "$probe/probe" "$probe/probe.c" ;;
    c++) "$1" -x c++ -c -o "$probe/probe.o" "$probe/probe.c" ;;
    esac >/dev/null 2>&1
    makes=$?
    rm -rf "$probe"
    return $makes
}

# Prints the first compiler among those given that works.
tools_compiler() { # c|c++ PACKAGES PROGRAM..
    language=$1 packages=$2
    shift 2
    for program in "$@"; do
        found=$(tools_path "$program" "$packages") && tools_makes "$found" "$language" && echo "$found" && return
    done
    return 1
}

# Writes the wrapper of an unpacked compiler: the packages' own assembler, headers and C library, wherever they are unpacked.
tools_wrap_compiler() { # PACKAGES PROGRAM
    [ -x "$tools_dir/$1/tree/usr/bin/$2" ] || return 0
    case $2 in
    x86_64-*) tools_wrap "$1" "$2" '-B"$at/usr/bin/x86_64-linux-gnu-"' ;;
    *) tools_wrap "$1" "$2" '-B"$at/usr/bin/" -B"$lib/" -idirafter "$at/usr/include/x86_64-linux-gnu" -idirafter "$at/usr/include" -L"$lib"' ;;
    esac
}

# Prints a compiler; where there is none, fetches those of both languages. g++ brings gcc with it.
tools_need_compiler() { # c|c++
    case $tools_machine/$1 in
    x86_64/c) programs='cc gcc clang' wanted='g++ libc6-dev' ;;
    x86_64/c++) programs='c++ g++ clang++' wanted='g++ libc6-dev' ;;
    */c) programs=x86_64-linux-gnu-gcc wanted='g++-x86-64-linux-gnu libc6-dev-amd64-cross' ;;
    */c++) programs=x86_64-linux-gnu-g++ wanted='g++-x86-64-linux-gnu libc6-dev-amd64-cross' ;;
    esac
    # shellcheck disable=SC2086
    tools_compiler "$1" gcc-x86 $programs && return
    # shellcheck disable=SC2086
    tools_fetch gcc-x86 $wanted || return 1
    for program in gcc g++ x86_64-linux-gnu-gcc x86_64-linux-gnu-g++; do
        tools_wrap_compiler gcc-x86 "$program"
    done
    # shellcheck disable=SC2086
    tools_compiler "$1" gcc-x86 $programs && return
    tools_say "no compiler here makes x86-64 programs of $1 (tried: $programs): install $wanted"
    return 1
}

# CC_X86: a C compiler that makes x86-64 programs.
need_cc() { CC_X86=$(tools_need_compiler c); }

# CXX_X86: a C++ compiler that makes x86-64 objects, for CC_X86 to link.
need_cxx() { CXX_X86=$(tools_need_compiler c++); }

# Whether a Rust compiler has the standard library of x86-64.
tools_rust_works() { # RUSTC [WORDS..]
    [ -d "$("$@" --print target-libdir 2>/dev/null)" ]
}

# Unpacks a Rust compiler for this host with the standard library of x86-64 into tools/rust. Debian has that library for
# an amd64 host alone, so it can't be installed beside an arm64 compiler.
tools_fetch_rust() {
    tools_can_fetch 'rustc with the target x86_64-unknown-linux-gnu' || return 1
    tools_say "unpacking rustc-web and its x86-64 library into $tools_dir/rust (about 400 MB)"
    into=$(mktemp -d) && rm -rf "$tools_dir/rust" "$tools_dir/apt/cache/archives"
    mkdir -p "$into/debs" "$into/tree" || return 1
    tools_apt update >>"$tools_dir/apt.log" 2>&1
    (
        cd "$into/debs" || exit 1
        tools_apt download "rustc-web:$tools_arch" libstd-rust-web-dev:amd64 >>"$tools_dir/apt.log" 2>&1 || exit 1
        # The compiler proper is a library, whose name has its version.
        library=$(dpkg-deb -f libstd-rust-web-dev_*.deb Depends | tr ',' '\n' | sed -n 's/^ *\(libstd-rust-web-[0-9.]*\) .*/\1/p')
        [ -n "$library" ] || exit 1
        tools_apt --download-only --no-install-recommends install "$library" >>"$tools_dir/apt.log" 2>&1 || exit 1
        cp "$tools_dir"/apt/cache/archives/*.deb .
    ) && tools_unpack "$into" && mv "$into" "$tools_dir/rust" && chmod 755 "$tools_dir/rust" && return
    rm -rf "$into"
    tools_say "missing: rustc with the target x86_64-unknown-linux-gnu; and it could not be fetched ($tools_dir/apt.log says why)"
    return 1
}

# RUSTC_X86: a Rust compiler that makes x86-64 programs without being told the target.
need_rustc() {
    tools_folder || return 1
    RUSTC_X86=$tools_dir/bin/rustc-x86
    if tools_has rustc && tools_rust_works rustc --target x86_64-unknown-linux-gnu; then
        printf '#!/bin/sh\nexec rustc --target x86_64-unknown-linux-gnu "$@"\n' >"$RUSTC_X86" && chmod +x "$RUSTC_X86"
        return
    fi
    [ -d "$tools_dir/rust" ] || tools_fetch_rust || return 1
    tools_wrap rust rustc '--target x86_64-unknown-linux-gnu' && mv "$tools_dir/bin/rustc" "$RUSTC_X86" || return 1
    tools_rust_works "$RUSTC_X86" || { tools_say "the Rust compiler in $tools_dir/rust does not work: remove that folder, so that it is fetched anew"; return 1; }
}

# Other programs

# PYTHON: Python 3.
need_python() {
    PYTHON=$(tools_path python3 python3) && return
    tools_fetch python3 python3 || return 1
    [ ! -d "$tools_dir/python3" ] || tools_wrap python3 python3
    PYTHON=$(tools_path python3 python3)
}

# Sets variables to the paths of the programs of one package.
tools_need_programs() { # PACKAGE VARIABLE=PROGRAM..
    package=$1
    shift
    fetched=
    for pair in "$@"; do
        program=${pair#*=}
        if ! found=$(tools_path "$program" "$package") && [ -z "$fetched" ]; then
            fetched=yes
            tools_fetch "$package" "$package" || return 1
            for other in "$@"; do
                [ ! -x "$tools_dir/$package/tree/usr/bin/${other#*=}" ] || tools_wrap "$package" "${other#*=}"
            done
        fi
        found=$(tools_path "$program" "$package") || { tools_say "the package $package has no $program here"; return 1; }
        eval "${pair%%=*}=\$found"
    done
}

# DECODE_APRS, GEN_PACKETS, KISSUTIL: direwolf's programs of those names; DIREWOLF itself.
need_direwolf() { tools_need_programs direwolf DECODE_APRS=decode_aprs GEN_PACKETS=gen_packets KISSUTIL=kissutil DIREWOLF=direwolf ATEST=atest; }

# TSHARK, TEXT2PCAP, EDITCAP: Wireshark's programs for the terminal.
need_tshark() { tools_need_programs tshark TSHARK=tshark TEXT2PCAP=text2pcap EDITCAP=editcap; }

# PKG_CONFIG: Debian's pkg-config.
need_pkg_config() { tools_need_programs pkgconf PKG_CONFIG=pkgconf; }
