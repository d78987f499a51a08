"""Proposes loop invariants, bounds and rankings, with `caesar verify` as the judge. docs/INVARIANTS.md says what it
does."""
