"""Only owners of the kit enter: what is here proves the crates, and compiles them to the files of compiled/.

The kit is the compiler and prover of Rattle, and `rt` is its command. Nothing outside imports one of these
modules, except fuzz, which compiles the kit's module of the library once more, and their own tests
(tests/sources/test_layers.py).
"""
