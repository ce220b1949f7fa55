sub tree {
    my ($d) = @_;
    return $d == 0 ? [] : [tree($d - 1), tree($d - 1)];
}
sub nodes {
    my ($t) = @_;
    return @$t ? 1 + nodes($t->[0]) + nodes($t->[1]) : 1;
}
my $max = <STDIN> + 0;
print "stretch tree of depth ", $max + 1, " nodes: ", nodes(tree($max + 1)), "\n";
my $long = tree($max);
for (my $d = 4; $d <= $max; $d += 2) {
    my ($n, $sum) = (1 << $max - $d + 4, 0);
    $sum += nodes(tree($d)) for 1 .. $n;
    print "$n trees of depth $d nodes: $sum\n";
}
print "long lived tree of depth $max nodes: ", nodes($long), "\n";
