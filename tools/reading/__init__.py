"""Reads the texts of the program, for all tools: sessions in `session`, outputs in `output`, what both have in `market`."""
