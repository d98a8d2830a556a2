"""Tests of what is proved next, on made-up crates. No prover has a part in them."""
