BEGIN {
    while (n < 500000) {
        n = n + 1
    }
    print n
}
