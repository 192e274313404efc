# AArch64, as llvm-objdump writes it: address, mnemonic and operands with tabs between them. The return address is in a
# register, and a function that keeps it stores it in its own frame. x18 is the platform's.
BEGIN { FS = "\t" }
started { started = 0; next }
/R_AARCH64_(CALL|JUMP)26/ { pending = 0; print "calls", called($NF); next }
/R_AARCH64_/ || NF < 2 { next }
pending { print "odd a call that is not understood:", $0; pending = 0 }
$2 ~ /^(blr|svc|hvc|smc|mrs|msr)/ || /<unknown>/ || $3 ~ /(^|[^a-z0-9])[wx]18([^0-9]|$)/ { print "odd", $2, $3 }
$2 == "bl" { pending = 1; next }
$3 ~ /(^|[^a-z0-9_])[bhsdqv][0-9]+([^0-9a-z_]|\.|$)/ { print "vector", $2, $3 }
$3 ~ /\[sp, #-0x[0-9a-f]+\]!$/ { match($3, /-0x[0-9a-f]+/); print "takes", hex(substr($3, RSTART, RLENGTH)); next }
$2 == "sub" && $3 ~ /^sp, sp, #0x[0-9a-f]+$/ { match($3, /0x[0-9a-f]+/); print "takes", hex(substr($3, RSTART, RLENGTH)); next }
$2 == "add" && $3 ~ /^sp, sp, #0x[0-9a-f]+$/ { next }
$2 ~ /^ld/ && $3 ~ /\[sp\], #0x[0-9a-f]+$/ { next }
$3 ~ /^w?sp,/ || $3 ~ /\[sp.*\]!/ || $3 ~ /\[sp\],/ { print "odd a change of the stack pointer:", $2, $3 }
match($3, /\[sp, #-0x[0-9a-f]+/) { print "below", hex(substr($3, RSTART + 6, RLENGTH - 6)) }
