"""What measures the program: bench/README.md tells how."""
