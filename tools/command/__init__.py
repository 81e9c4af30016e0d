"""The words of ./fx: their table, what is wrong with wrong ones, the pages that are made from the table, and the package."""
