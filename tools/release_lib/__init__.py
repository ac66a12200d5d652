"""What each tool knows of the release that it is of.

version  the number of the release, and where the program stands: in the repository, or installed below a prefix
"""
