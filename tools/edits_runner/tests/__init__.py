"""Tests of the runner of edits, on small made-up crates. No prover has a part in them."""
