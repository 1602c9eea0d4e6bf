"""Makes the tests of json/ from the tables."""
