{ k = split($0, words, /[^a-z]+/); for (i = 1; i <= k; i++) if (words[i] != "") { n++; t[words[i]]++ } }
END { for (w in t) { d++; if (t[w] > m) m = t[w] } print n, d, m }
