# shellcheck shell=bash
# For the scripts about the archives: the targets, the kit's own tools, and what the header declares.

# the targets beside x86_64, and how the kit's clang is told of each
targets="aarch64 riscv64 x86_64-kernel"

target_arguments() { # TARGET
    case $1 in
    aarch64) echo --target=aarch64-unknown-linux-gnu -march=armv8-a -ffixed-x18 ;;
    riscv64) echo --target=riscv64-unknown-linux-gnu -march=rv64gc -mabi=lp64d ;;
    x86_64-kernel) echo --target=x86_64-unknown-linux-gnu -march=x86-64 -mgeneral-regs-only ;;
    *) refuse "unknown target '$1', which is none of $targets" ;;
    esac
}

# what the processor of a target has to have
target_processor() { # TARGET
    case $1 in
    x86_64) echo "x86-64 with SSE2" ;;
    aarch64) echo "ARMv8-A with Advanced SIMD, without x18" ;;
    riscv64) echo "RV64GC, ABI lp64d" ;;
    x86_64-kernel) echo "x86-64 without SSE" ;;
    esac
}

# the functions that include/kajurnat.h declares, a line each; those that it defines itself are not of the archive
declared_functions() {
    sed '/^static inline/,/^}/d; s:/\*.*\*/::; /^ \*/d; /^\/\*/d' include/kajurnat.h | grep -oE '\bkajurnat_[a-z0-9_]+\(' | tr -d '(' | sort
}

# the folder of the toolchain that rt belongs to, and that of its clang, which is llvm-objdump too where it is called so
kit_folder() {
    dirname "$(rt doc)"
}

kit_tools() {
    echo "$(kit_folder)/toolchain/bin"
}

# Checks crates/kajurnat_c over the libraries that rt has left in out/, as `rt lib` does, and builds the archive with the tools
# of a folder: the kit's, or others in their place.
build_library() { # TOOLCHAIN ARCHIVE
    local kit words=() name
    kit=$(kit_folder)
    for name in core std; do words+=(--extern "$name=$kit/rlibs/$name.rlib"); done
    for name in $(sed -n 's/^kajurnat_c staticlib: *//p' crates.txt); do
        words+=(--extern "$name=$PWD/crates/$name/out/rlib/$name.rlib")
    done
    for name in $(scripts/crates kajurnat); do words+=(-L "dependency=$PWD/crates/$name/out/rlib"); done
    (cd crates/kajurnat_c && "$kit/bin/rattle" build --crate-name kajurnat_c src/lib.rt --crate-type staticlib --cpu x86-64 \
        "${words[@]}" -L "dependency=$kit/rlibs" --antt-project "$kit/rattle/logic/antt-project.json" \
        --logic-built "$kit/logic_built" --incremental out/incremental --toolchain "$1" -o "$2" 2>&1)
}

kit_objdump() { # ARGUMENT...
    (exec -a llvm-objdump "$(kit_tools)/clang" --disassemble --reloc --no-show-raw-insn "$@")
}

# compiles a module as target/module/arguments says, which is how rattle has the library compiled, but for another target
compile_module() { # MODULE OBJECT TARGET-ARGUMENT...
    local module=$1 object=$2 argument arguments=()
    shift 2
    while IFS= read -r argument; do
        case $argument in
        --target=* | -march=* | --sysroot=*) ;;
        module.bc) arguments+=("$module") ;;
        module.o) arguments+=("$object") ;;
        *) arguments+=("$argument") ;;
        esac
    done <target/module/arguments
    "$(kit_tools)/clang" "${arguments[@]}" "$@"
}
