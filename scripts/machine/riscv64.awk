# RISC-V, as llvm-objdump writes it: address, mnemonic and operands with tabs between them. A call is auipc, with the
# relocation that names what is called, and jalr; the return address is in a register.
BEGIN { FS = "\t" }
started { started = 0; next }
/R_RISCV_CALL_PLT/ { named = 1; print "calls", called($NF); next }
/R_RISCV_/ || NF < 2 { next }
$2 == "jalr" && !named || $2 == "jal" || $2 ~ /^(ecall|csr|sret|mret|wfi)/ || /<unknown>/ { print "odd", $2, $3 }
$2 ~ /^j(al)?r$/ { named = 0 }
$3 ~ /(^|[ (])(tp|gp)([,)]|$)/ { print "odd", $2, $3 }
$3 ~ /(^|[ (])(f[ast][0-9]+|v[0-9]+)([,)]|$)/ { print "vector", $2, $3 }
$2 == "addi" && $3 ~ /^sp, sp, -0x[0-9a-f]+$/ { match($3, /0x[0-9a-f]+/); print "takes", hex(substr($3, RSTART, RLENGTH)); next }
$2 == "addi" && $3 ~ /^sp, sp, 0x[0-9a-f]+$/ { next }
$3 ~ /^sp,/ { print "odd a change of the stack pointer:", $2, $3 }
match($3, /-0x[0-9a-f]+\(sp\)/) { print "below", hex(substr($3, RSTART + 1, RLENGTH - 5)) }
