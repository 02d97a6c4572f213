my $n = 0;
while (my $line = <STDIN>) {
    chomp $line;
    $line =~ /^(.*?),(.*)$/s or next;
    $n = $n + $2;
    printf "%s %04d\n", $1, $n;
}
