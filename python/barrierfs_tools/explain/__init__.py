"""What each event of a script did, and why it did nothing."""
