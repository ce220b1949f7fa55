my ($n, $last) = (0, '');
sub perm {
    my ($s, $r) = @_;
    if ($s eq '') { $n++; $last = $r; return }
    for my $i (0 .. length($s) - 1) { my $t = $s; my $c = substr($t, $i, 1, ''); perm($t, $r . $c) }
}
chomp(my $s = <STDIN>);
perm($s, '');
print "$n $last\n";
