"""Wrong bodies: functions of the crates, edited so that they do something else, which the prover has to refuse; and at the same
places right bodies in other words, which it has to prove."""
