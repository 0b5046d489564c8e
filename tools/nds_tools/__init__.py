"""What the tools for authors share: records of a run, places of memory, ELF files, pictures, and the program `nds`."""
