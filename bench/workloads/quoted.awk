BEGIN { FPAT = "([^,]*)|(\"([^\"]|\"\")*\")" }
{ f = $2; if (f ~ /^"/) { f = substr(f, 2, length(f) - 2); gsub(/""/, "\"", f) } print NF, f }
