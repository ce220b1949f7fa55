my @digits = ('', qw(I II III IV V VI VII VIII IX));
sub roman {
    my ($n) = @_;
    return '' if $n eq '';
    my $t = chop $n;
    my $r = roman($n);
    $r =~ tr/IVXLC/XLCDM/;
    return $r . $digits[$t];
}
my ($n, $r) = (0, '');
while (<STDIN>) { chomp; $r = roman($_); $n += length $r }
print "$n $r\n";
