my ($n, $s) = (0, 0);
while (<STDIN>) { while (/([a-z]+)/g) { $n++; $s += length $1 } }
print "$n $s\n";
