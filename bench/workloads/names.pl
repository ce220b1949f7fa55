my %t = (name => 'Ada', thing => 'engine', place => 'London', year => 1843);
while (<STDIN>) { s/\$([a-z]+)/$t{$1}/g; print }
