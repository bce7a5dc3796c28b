"""What an installation and a release consist of, and how they are packed."""
