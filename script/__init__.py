"""What ./morph is made of: its words, the crates below the program, their proofs, and the runs."""
