"""A small world: replicas, a scheduler and a script, played without the program as the documents tell them. `.ci/reports`,
`.ci/scripts` and `.ci/stores` compare the programs with it, and tools/timeline draws what its replicas do."""
