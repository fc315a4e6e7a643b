"""The tests of tools/frames. They need the repository's examples, and neither the runner nor the prover."""
