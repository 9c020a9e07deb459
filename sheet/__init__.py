"""The sheet: readable scripts, what the proved replay answers to them, and what another panel does."""
