# The machines that the library is built for, and how a C compiler and an emulator get there; the commands of this folder read it.
# shellcheck shell=bash disable=SC2034,SC2154

export PYTHONDONTWRITEBYTECODE=1

# The kit's folder, its LLVM, and the archive that `rt lib` makes of the proved library.
kit=$(dirname "$(rt doc)")
tools=$kit/toolchain/bin
proved_archive=$root/crates/chaffrail/out/libchaffrail.a

boards=(thumbv8m.main-none-eabi thumbv8m.main-none-eabihf riscv32imac-unknown-none-elf)
host=x86_64-unknown-linux-gnu

# target NAME: sets what is known of a board, by Rust's name of it.
#   triple, clang                 LLVM's name, and the words that the kit's clang takes
#   gnu, cc, cc_words             the prefix of Debian's tools for it, its gcc, and the words that gcc takes
#   flash, ram, entry             where qemu's machine has memory, and what it starts
#   emulator                      qemu with the words for a machine of this core
target() {
    case $1 in
    thumbv8m.main-none-eabi*)
        triple=$1
        clang=(-mcpu=cortex-m33)
        gnu=arm-none-eabi
        cc_words=(-mcpu=cortex-m33 -mthumb -mfloat-abi=soft --specs=nano.specs)
        [ "$1" = thumbv8m.main-none-eabi ] || cc_words[2]=-mfloat-abi=hard
        flash=0x10000000 ram=0x38000000 entry=start
        emulator=(qemu-system-arm -M mps2-an505 -cpu cortex-m33)
        ;;
    riscv32imac-unknown-none-elf)
        triple=riscv32-unknown-none-elf
        clang=(-march=rv32imac -mabi=ilp32)
        gnu=riscv64-unknown-elf
        cc_words=(-march=rv32imac -mabi=ilp32 -mcmodel=medany --specs=picolibc.specs)
        flash=0x80000000 ram=0x80400000 entry=_start
        emulator=(qemu-system-riscv32 -M virt -cpu rv32 -bios none)
        ;;
    *)
        echo "board: no target $1" >&2
        return 1
        ;;
    esac
    cc=$gnu-gcc
}

# missing: what of the last target's tools isn't at hand.
missing() {
    local tool
    for tool in "$cc" "${emulator[0]}"; do command -v "$tool" >/dev/null || echo "$tool"; done
}

strict=(-std=c11 -O2 -Wall -Wextra -Werror)

# linked LIBRARY PROGRAM SOURCES...: a program for the last target, over an archive; the folders are those of the command that calls.
linked() {
    local library=$1 program=$2
    shift 2
    "$cc" "${cc_words[@]}" "${strict[@]}" -ffunction-sections -fdata-sections -nostartfiles -I"$root/include" -I"$here/machine" \
        -T "$here/machine/board.ld" -Wl,--defsym=FLASH_AT="$flash",--defsym=RAM_AT="$ram",--entry="$entry" \
        -Wl,--gc-sections,--no-warn-rwx-segments,-z,noexecstack -o "$program" "$here/machine/board.c" "$@" "$library"
}

# linked_here LIBRARY PROGRAM SOURCES...: the same for this machine.
linked_here() {
    local library=$1 program=$2
    shift 2
    cc "${strict[@]}" -I"$root/include" -I"$here/machine" -o "$program" "$@" "$here/machine/host.c" "$library"
}

# emulated PROGRAM [WORDS...]: runs a program of the last target in this folder, at most five minutes.
emulated() {
    local program=$1
    shift
    timeout 300 "${emulator[@]}" "$@" -semihosting-config enable=on,target=native -display none -monitor none -serial none -kernel "$program"
}

# The Rust compiler of Debian's package, and the source of its core. Everything that is compiled for a board with it goes to rust/target/board, which
# outlives a build.
rust_compiler=/usr/bin/rustc
rust_source() {
    local version
    version=$("$rust_compiler" --version 2>/dev/null | sed 's/^rustc \([0-9.]*\) .*/\1/') || true
    [ -n "$version" ] && [ -d "/usr/src/rustc-$version/library/core" ] && echo "/usr/src/rustc-$version/library"
}

# rust_core NAME: the core for a board, made once; prints its folder.
rust_core() {
    local folder=$root/rust/target/board/$1 words=(--target "$1" -Copt-level=3 -Cpanic=abort --cap-lints allow)
    mkdir -p "$folder"
    if [ ! -f "$folder/libcompiler_builtins.rlib" ]; then
        RUSTC_BOOTSTRAP=1 "$rust_compiler" --edition 2024 --crate-name core --crate-type rlib "${words[@]}" -o "$folder/libcore.rlib" "$(rust_source)/core/src/lib.rs" || return 1
        # What it would bring (memcpy, divisions) is in the C library and in libgcc.
        RUSTC_BOOTSTRAP=1 "$rust_compiler" --edition 2021 --crate-name compiler_builtins --crate-type rlib "${words[@]}" --extern core="$folder/libcore.rlib" \
            -o "$folder/libcompiler_builtins.rlib" - <<<'#![feature(compiler_builtins)] #![compiler_builtins] #![no_std]' || return 1
    fi
    echo "$folder"
}

# rust NAME CRATE TYPE SOURCE [WORDS...]: compiled against that core, into its folder; prints the file.
rust() {
    local folder name=$1 crate=$2 type=$3 source=$4 file
    shift 4
    folder=$(rust_core "$name") || return 1
    case $type in staticlib) file=$folder/lib$crate.a ;; *) file=$folder/lib$crate.rlib ;; esac
    RUSTC_BOOTSTRAP=1 "$rust_compiler" --edition 2021 --crate-name "$crate" --crate-type "$type" --target "$name" -Copt-level=3 -Ccodegen-units=1 -Cpanic=abort \
        --extern core="$folder/libcore.rlib" --extern compiler_builtins="$folder/libcompiler_builtins.rlib" -L "$folder" "$@" -o "$file" "$source" || return 1
    echo "$file"
}
