my $n = 0;
while ($n < 500000) {
    $n = $n + 1;
}
print "$n\n";
