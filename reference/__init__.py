"""Reference program for path questions over a bench register."""
