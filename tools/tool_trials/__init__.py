"""The trials of tools/explain, tools/covers, tools/export, tools/compare and tools/fix, which tools/tools_test runs."""
