"""What conformance/every is made of: tests, the worker in C that runs them, and the table of what was tried.

worker: the C files of this folder.
"""
