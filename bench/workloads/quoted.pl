while (my $line = <STDIN>) {
    chomp $line;
    my @fields;
    while ($line =~ /\G(?:"((?:[^"]|"")*)"|([^,]*))(,|$)/g) {
        my ($quoted, $bare, $end) = ($1, $2, $3);
        push @fields, defined $quoted ? $quoted =~ s/""/"/gr : $bare;
        last if $end eq '';
    }
    print scalar(@fields), " $fields[1]\n";
}
