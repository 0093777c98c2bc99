"""A slow model of the session machine, written from the rules of the language and of the commands and not from the program.

Strings, proofs and databases are whole values here, and every search is the plain one. So the model is short enough to be
read, and what it prints can be compared with what the program prints.
"""
