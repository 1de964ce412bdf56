"""The prover's aids: they build and prove the crates, try wrong bodies, and compare pages and lists with the tree."""
