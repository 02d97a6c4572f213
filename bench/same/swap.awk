BEGIN {
    line = "W7,120,BARLEY,ROTTERDAM,1995-03,EUR,OK"
    while (n < 250000) {
        at = index(line, ",")
        if (at == 0) break
        lot = substr(line, 1, at - 1)
        rest = substr(line, at + 1)
        line = rest "," lot
        last = lot
        n = n + 1
    }
    print line; print lot; print rest; print last; print n
}
