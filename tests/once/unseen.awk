# Of the instructions of the five calls that are lent a ring or a page (objdump -d), those that no traced call ran. One that may reach a ring, by
# any address but the stack's or its own, must not be among them.
FNR == NR { seen[$1] = 1; next }
/^[0-9a-f]+ <.*>:$/ { within = /<kh_(turn|complete|complete_many|guest_put|guest_collect)>/ }
!within || !/^ / { next }
{
    at = $1
    sub(/:$/, "", at)
    sub(/^[ \t]*[0-9a-f]+:[ \t]*/, "")
    if (/^(nop|data16|cs nop|xchg +%ax,%ax|int3)/) next
    all++
    if (at in seen) next
    unseen++
    if (/\(/ && !/^lea/ && !/\(%r(sp|ip)[,)]/) { reaching++; print "no traced call ran " at ": " $0 }
}
END {
    printf "%d of the %d instructions of the five calls ran in the samples; %d of the others could reach a ring\n", all - unseen, all, reaching
    exit all == 0 || reaching > 0
}
