"""What the tests of the library on other systems than Linux on x86-64 share."""
