my @a = (0, map { $_ + 0 } <STDIN>);
my $n = $#a;
for (my $gap = int($n / 2); $gap >= 1; $gap = int($gap / 2)) {
    for my $i ($gap + 1 .. $n) {
        my ($x, $j) = ($a[$i], $i);
        while ($j > $gap && $a[$j - $gap] > $x) { $a[$j] = $a[$j - $gap]; $j -= $gap }
        $a[$j] = $x;
    }
}
print "$a[1] $a[int($n / 2)] $a[$n]\n";
