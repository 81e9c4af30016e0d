"""The trials of ./fx, its pages and its package; tools/start_test runs them."""
