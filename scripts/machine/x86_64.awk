# x86-64, as GNU objdump writes it. A call pushes the return address, so that each function takes 8 bytes of its own.
started { started = 0; print "takes", 8; next }
/R_X86_64_PLT32/ { pending = 0; print "calls", called($NF); next }
pending { print "odd a call that is not understood:", $0; pending = 0 }
/\tcall +\*/ || /\t(syscall|sysenter|int) / || /\t(syscall|sysenter)$/ || /%[fg]s/ { print "odd", $0 }
/\tcall / { pending = 1; next }
/%([xyz]?mm[0-9]|st)/ { print "vector", $0 }
/\tpush / { print "takes", 8; next }
/\tsub +\$0x[0-9a-f]+,%rsp/ { match($0, /0x[0-9a-f]+/); print "takes", hex(substr($0, RSTART, RLENGTH)); next }
/,%rsp$/ && (!/\tadd / || /\$0xffffffff/) { print "odd a change of the stack pointer:", $0 }
match($0, /-0x[0-9a-f]+\(%rsp/) { print "below", hex(substr($0, RSTART, RLENGTH - 5)) }
