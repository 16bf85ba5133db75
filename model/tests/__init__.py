"""The plain model's tests, a file for each room."""
