"""What the tools around the gate share: sources and their checksum, the built program, checks, and times of a run."""
