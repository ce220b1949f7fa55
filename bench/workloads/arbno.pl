while (<STDIN>) { chomp; print /^(?:([a-z])|Z)*$/ ? "$1\n" : "no\n" }
