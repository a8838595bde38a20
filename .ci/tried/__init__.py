"""What `.ci/hostile` gives to the program."""
