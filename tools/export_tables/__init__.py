"""What tools/export makes: the tables in `tables`, their rows in `rows`, and the places where they go in `sinks`."""
