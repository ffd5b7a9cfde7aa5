"""What is asked of instances of the library; __main__.py is the way in."""
