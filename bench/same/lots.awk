(at = index($0, ",")) > 0 {
    n = n + substr($0, at + 1)
    printf "%s %04d\n", substr($0, 1, at - 1), n
}
