"""What tools/fix is made of: the bytes of FIX 4.4 messages, what they ask for, the side table, and the reports on an output."""
