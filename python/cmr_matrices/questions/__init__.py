"""What the program is asked, about matrices and about the matroids that they represent, and its answers with their evidence."""
