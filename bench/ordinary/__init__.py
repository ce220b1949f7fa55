"""Ordinary programs, each as a deck and in Lua, and their inputs."""
