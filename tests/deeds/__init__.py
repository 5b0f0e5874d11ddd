"""The parts of `tests/wrong_deeds`, which `docs/clauses` and `docs/pictures` use too."""
