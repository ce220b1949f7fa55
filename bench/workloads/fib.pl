sub fib { my ($n) = @_; return $n < 2 ? $n : fib($n - 1) + fib($n - 2) }
my $n = <STDIN>;
print fib($n), "\n";
