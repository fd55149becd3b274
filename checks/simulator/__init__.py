"""A simulator written a second time, in another language, from docs/ and the RFCs, to be laid beside the program."""
