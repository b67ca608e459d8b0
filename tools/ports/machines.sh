# Read by scripts/library and tests/ports/run: the machines, and what a compiler is told of each.

machines="x86-64 cortex-m0 cortex-m3 cortex-m4f riscv32imc wasm32"

# clang_words MACHINE: for the toolchain's clang, into the array words. -fshort-enums: as arm-none-eabi-gcc; no enum crosses the boundary, but
# its linker warns of an object without.
clang_words() {
    case $1 in
    cortex-m0) words=(--target=thumbv6m-none-eabi -mcpu=cortex-m0 -mfloat-abi=soft -fshort-enums) ;;
    cortex-m3) words=(--target=thumbv7m-none-eabi -mcpu=cortex-m3 -mfloat-abi=soft -fshort-enums) ;;
    cortex-m4f) words=(--target=thumbv7em-none-eabihf -mcpu=cortex-m4 -mfloat-abi=hard -mfpu=fpv4-sp-d16 -fshort-enums) ;;
    riscv32imc) words=(--target=riscv32-unknown-elf -march=rv32imc -mabi=ilp32) ;;
    wasm32) words=(--target=wasm32-unknown-unknown -fvisibility=hidden) ;;
    *) return 1 ;;
    esac
}

# gcc_words MACHINE: for the cross gcc that links a program with the library; its first word is the compiler
gcc_words() {
    case $1 in
    cortex-m0) words=(arm-none-eabi-gcc -mthumb -mcpu=cortex-m0) ;;
    cortex-m3) words=(arm-none-eabi-gcc -mthumb -mcpu=cortex-m3) ;;
    cortex-m4f) words=(arm-none-eabi-gcc -mthumb -mcpu=cortex-m4 -mfloat-abi=hard -mfpu=fpv4-sp-d16) ;;
    riscv32imc) words=(riscv64-unknown-elf-gcc -march=rv32imc -mabi=ilp32) ;;
    *) return 1 ;;
    esac
}
