"""Rosters with rules: rules read, rows that mean them, answers by stages, and what a plan breaks."""
