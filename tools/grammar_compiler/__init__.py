"""The compiler of grammars that tools/grammar calls: from the text to operations, to a table, its checks, and the files."""
