"""What `krill` is made of: words (the command line), store (krillc over a store), commands, origins, explain, tables,
health, points (the publication points that are exported)."""
