my ($line, $lot, $rest, $last, $n) = ("W7,120,BARLEY,ROTTERDAM,1995-03,EUR,OK", "", "", "", 0);
while ($n < 250000) {
    $line =~ s/^(.*?),(.*)$/$2,$1/s or last;
    $lot = $1;
    $rest = $2;
    $last = $lot;
    $n = $n + 1;
}
print "$line\n$lot\n$rest\n$last\n$n\n";
