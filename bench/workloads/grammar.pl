my $whole = qr/^(?<sum>(?<product>(?<factor>\d+|\((?&sum)\))(?:[*\/](?&factor))*)(?:[-+](?&product))*)$/;
my ($yes, $no) = (0, 0);
while (<STDIN>) { chomp; if (/$whole/) { $yes++ } else { $no++ } }
print "$yes $no\n";
