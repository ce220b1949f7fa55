import sys
DIGITS = ["", "I", "II", "III", "IV", "V", "VI", "VII", "VIII", "IX"]
UP = str.maketrans("IVXLC", "XLCDM")
def roman(n):
    return roman(n[:-1]).translate(UP) + DIGITS[int(n[-1])] if n else ""
total, r = 0, ""
for line in sys.stdin:
    r = roman(line.rstrip("\n"))
    total += len(r)
print(total, r)
