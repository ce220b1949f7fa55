"""Loops drawn from a grammar of statements, each as a deck and in Lua."""
