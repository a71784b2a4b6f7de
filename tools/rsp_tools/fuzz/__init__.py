"""The fuzz targets of fuzz/: how they are built, their seeds and their dictionary."""
