"""The library for other systems than Linux on x86-64: the same proved code, handed to LLVM for another
processor or another system."""
