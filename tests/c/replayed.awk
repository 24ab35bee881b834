# What replay says to a recorded trace: a line for each call, without the bytes that it changed, and below it the answer
# that was recorded. Both have to be the same.
/^#/ {
    if ($0 != "# " said) { print "recorded " $0 "\nreplayed # " said; differ = 1 }
    answers++
    next
}
{
    said = $0
    sub(/( [0-9]+:[0-9]+)+$/, "", said)
    calls++
}
END {
    print "     " answers " answers of a trace, replayed"
    exit differ || answers != calls || answers < 150
}
