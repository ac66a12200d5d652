"""A picture of a run: what each replica did in each turn, and what went between them and the scheduler."""
