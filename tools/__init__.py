"""What builds, proves, tries and releases the program, and what shows what it left."""
