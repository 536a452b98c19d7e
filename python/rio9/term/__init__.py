"""A program in a window of a served desktop, by a pseudo terminal: `rio9d term`. rio9.term.command tells its words."""
