my $item = qr/((?:[^() ]|(\((?:[^()]|(?2))*\)))+)/;
while (my $line = <STDIN>) {
    chomp $line;
    my ($n, $m) = (0, 0);
    $line = substr($line, 1, -1);
    while ($line =~ /$item(?: |$)/g) { $n++; $m = length $1 if length $1 > $m }
    print "$n $m\n";
}
