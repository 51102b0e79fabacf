"""Prints what repeats for each struct and sum of the tree, from the one transcription of it."""
