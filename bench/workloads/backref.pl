while (<STDIN>) { print /(.{4}).*?\1/ ? "$1\n" : "none\n" }
