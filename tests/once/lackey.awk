# From the output of valgrind's lackey: what each call between two markers did to the rings, and into the file `ran` the instructions that it ran.
/^ S 100000000,8/ { within = 1; print "call"; next }
/^ S 100000008,8/ { within = 0 }
!within { next }
/^ [LSM] 1000(0[2-9a-f]|1[01])[0-9a-f][0-9a-f][0-9a-f],/ { print; next }
/^I/ {
    at = $2
    sub(/,.*/, "", at)
    sub(/^0+/, "", at)
    if (!(at in seen)) print at > ran
    seen[at] = 1
}
