my $top = <STDIN>;
my @a = (1) x ($top + 1);
my $c = 0;
for my $n (2 .. $top) {
    next unless $a[$n];
    $c++;
    for (my $m = $n * $n; $m <= $top; $m += $n) { $a[$m] = 0 }
}
print "$c\n";
