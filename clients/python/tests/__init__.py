"""Tests of the client: over a small server that plays scripts, and over the program itself."""
