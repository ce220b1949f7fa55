"""Names of keywords, of primitive functions and of returns."""

RETURNS = frozenset((b"RETURN", b"FRETURN", b"NRETURN"))

# What keywords hold at first.
KEYWORDS = {
    b"ANCHOR": 0,
    b"FULLSCAN": 1,
    b"TRIM": 0,
    b"INPUT": 1,
    b"OUTPUT": 1,
    b"STLIMIT": 50000,
    b"MAXLNGTH": 5000,
    b"ALPHABET": bytes(range(256)),
    b"STCOUNT": 0,
    b"STNO": 0,
    b"LASTNO": 0,
    b"STFCOUNT": 0,
    b"FNCLEVEL": 0,
    b"RTNTYPE": b"",
}
PROTECTED = frozenset((b"ALPHABET", b"STCOUNT", b"STNO", b"LASTNO", b"STFCOUNT", b"FNCLEVEL", b"RTNTYPE"))

# How many arguments calls of primitives may have.
MOST_ARGUMENTS = {
    b"LEN": 1,
    b"POS": 1,
    b"RPOS": 1,
    b"TAB": 1,
    b"RTAB": 1,
    b"ANY": 1,
    b"NOTANY": 1,
    b"SPAN": 1,
    b"BREAK": 1,
    b"ARBNO": 1,
    b"EQ": 2,
    b"NE": 2,
    b"LT": 2,
    b"LE": 2,
    b"GT": 2,
    b"GE": 2,
    b"LGT": 2,
    b"IDENT": 2,
    b"DIFFER": 2,
    b"INTEGER": 1,
    b"SIZE": 1,
    b"TRIM": 1,
    b"DUPL": 2,
    b"REPLACE": 3,
    b"REMDR": 2,
    b"DATATYPE": 1,
    b"ARRAY": 2,
    b"TABLE": 2,
    b"ITEM": 9,
    b"COPY": 1,
    b"CONVERT": 2,
    b"DATA": 1,
    b"DEFINE": 2,
    b"APPLY": 255,
    b"INPUT": 3,
    b"OUTPUT": 3,
    b"DETACH": 1,
    b"FENCE": 1,
}
