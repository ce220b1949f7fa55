my (%t, $n, $m);
while (<STDIN>) { while (/([a-z]+)/g) { $n++; $t{$1}++ } }
for (values %t) { $m = $_ if $_ > $m }
print "$n ", scalar(keys %t), " $m\n";
