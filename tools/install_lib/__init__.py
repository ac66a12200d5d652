"""The parts of tools/install and tools/man. None of them is installed.

command   the words of tools/install, and what it tells
contents  which files are installed, and where
prefix    the folders below which they are put, replaced and removed
pages     the man pages: of which parts each is made
sources   what the parts are made from: the manuals, and what the tools say of their words
manual    the parts of a manual: sections, tables, blocks and paragraphs
roff      a part of a manual in the language of man pages
"""
