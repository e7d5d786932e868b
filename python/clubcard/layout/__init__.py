"""The layouts of the program's files (docs/FORMATS.md), field by field: what is in a file, and which field is wrong."""
