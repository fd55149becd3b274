"""What the tools share: scenarios with the place of each word in the file, captures, traces, flows and the program."""
