my ($n, $s) = (0, 0);
while (<STDIN>) { if (/(ab.*?cd.*?ef.*?gh)/) { $n++; $s += length $1 } }
print "$n $s\n";
