{ k = split($0, words, /[^a-z]+/); for (i = 1; i <= k; i++) if (words[i] != "") { n++; s += length(words[i]) } }
END { print n, s }
