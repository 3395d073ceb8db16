"""What a cache is made of, for the tools in the folder above. It goes by docs/FORMATS.md, not by the program.

It needs nothing but Python. Of other libraries only those that unpack are asked for, where they are there.
"""
