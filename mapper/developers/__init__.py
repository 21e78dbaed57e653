"""What only developers run: pictures of a page, and the sample lists."""
