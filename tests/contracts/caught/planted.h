// Wrong bodies that tests must catch.

// Runs a test with each of its own: in a child for each, which goes on to the test and to which this answers 1, and 0 once
// they have ended. A process whose test doesn't catch one ends here.
int run_planted(const char *test);
