"""What the tools share: the lines of XML files with their places, schema sets, the program, its answers, and the words of codes."""
