"""What the pages show, done as a reader would do it; `tests/docs PROGRAM` asks for it.

Each module has `checks(sno)`, where sno is a program: triples of a place, what is looked at there, and whether it is so.
"""
