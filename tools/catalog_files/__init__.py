"""What tools/catalogs and tools/planted share: catalogs, files of other kinds that are made of them, and the program that checks these."""
